use crate::AABB;

/// An object that a tree can hold.
pub trait RTreeObject {
    /// A tree asks for `AABB<[i64; 2]>`.
    type Envelope;

    /// The bounding box of the object. It does not change while the object is in a tree.
    fn envelope(&self) -> Self::Envelope;
}

impl RTreeObject for [i64; 2] {
    type Envelope = AABB<[i64; 2]>;

    fn envelope(&self) -> Self::Envelope {
        AABB::from_point(*self)
    }
}
