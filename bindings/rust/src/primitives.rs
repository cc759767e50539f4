//! Objects that are ready to use.

use crate::{RTreeObject, AABB};

/// A rectangle.
#[derive(Clone, Copy, Debug, PartialEq, Eq, PartialOrd, Ord, Hash)]
pub struct Rectangle<P> {
    aabb: AABB<P>,
}

impl Rectangle<[i64; 2]> {
    /// The rectangle of two opposite corners, in any order.
    pub fn from_corners(corner_1: [i64; 2], corner_2: [i64; 2]) -> Self {
        Self::from_aabb(AABB::from_corners(corner_1, corner_2))
    }

    /// The rectangle of a box.
    pub fn from_aabb(aabb: AABB<[i64; 2]>) -> Self {
        Rectangle { aabb }
    }

    /// The corner with the least coordinates.
    pub fn lower(&self) -> [i64; 2] {
        self.aabb.lower()
    }

    /// The corner with the greatest coordinates.
    pub fn upper(&self) -> [i64; 2] {
        self.aabb.upper()
    }
}

impl RTreeObject for Rectangle<[i64; 2]> {
    type Envelope = AABB<[i64; 2]>;

    fn envelope(&self) -> Self::Envelope {
        self.aabb
    }
}

/// An object with data of its own.
#[derive(Clone, Copy, Debug, PartialEq, Eq, PartialOrd, Ord, Hash)]
pub struct GeomWithData<R, T> {
    geom: R,
    /// The data.
    pub data: T,
}

impl<R, T> GeomWithData<R, T> {
    /// An object and its data.
    pub fn new(geom: R, data: T) -> Self {
        GeomWithData { geom, data }
    }

    /// The object.
    pub fn geom(&self) -> &R {
        &self.geom
    }
}

impl<R: RTreeObject, T> RTreeObject for GeomWithData<R, T> {
    type Envelope = R::Envelope;

    fn envelope(&self) -> Self::Envelope {
        self.geom.envelope()
    }
}
