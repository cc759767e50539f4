/// An axis-aligned bounding box, whose border belongs to it.
#[derive(Clone, Copy, Debug, PartialEq, Eq, PartialOrd, Ord, Hash)]
#[repr(C)] // it is passed as a rstar_box
pub struct AABB<P> {
    lower: P,
    upper: P,
}

impl AABB<[i64; 2]> {
    /// The box of two opposite corners, in any order.
    pub fn from_corners(p1: [i64; 2], p2: [i64; 2]) -> Self {
        AABB { lower: [p1[0].min(p2[0]), p1[1].min(p2[1])], upper: [p1[0].max(p2[0]), p1[1].max(p2[1])] }
    }

    /// The box of a point alone.
    pub fn from_point(p: [i64; 2]) -> Self {
        AABB { lower: p, upper: p }
    }

    /// The corner with the least coordinates.
    pub fn lower(&self) -> [i64; 2] {
        self.lower
    }

    /// The corner with the greatest coordinates.
    pub fn upper(&self) -> [i64; 2] {
        self.upper
    }
}
