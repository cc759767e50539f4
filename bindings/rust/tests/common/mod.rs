//! Random objects, and what a scan of them answers. The scan knows nothing of the crate but the corners of a rectangle.
#![allow(dead_code)] // each test file uses some of it

use vaikrone::primitives::Rectangle;

/// splitmix64
pub struct Random(pub u64);

impl Random {
    pub fn number(&mut self) -> u64 {
        self.0 = self.0.wrapping_add(0x9e3779b97f4a7c15);
        let z = (self.0 ^ (self.0 >> 30)).wrapping_mul(0xbf58476d1ce4e5b9);
        let z = (z ^ (z >> 27)).wrapping_mul(0x94d049bb133111eb);
        z ^ (z >> 31)
    }

    pub fn below(&mut self, bound: u64) -> u64 {
        self.number() % bound
    }

    /// A number from `-bound` up to `bound`, which is left out.
    pub fn around_zero(&mut self, bound: i64) -> i64 {
        self.below(2 * bound as u64) as i64 - bound
    }

    pub fn point(&mut self, bound: i64) -> [i64; 2] {
        [self.around_zero(bound), self.around_zero(bound)]
    }

    pub fn rectangle(&mut self, bound: i64, side: i64) -> Rectangle<[i64; 2]> {
        let corner = self.point(bound);
        let other = [corner[0] + self.around_zero(side), corner[1] + self.around_zero(side)];
        Rectangle::from_corners(corner, other)
    }
}

pub fn random_points(count: usize, seed: u64) -> Vec<[i64; 2]> {
    let mut random = Random(seed);
    (0..count).map(|_| random.point(1_000_000)).collect()
}

pub fn random_rectangles(count: usize, seed: u64) -> Vec<Rectangle<[i64; 2]>> {
    let mut random = Random(seed);
    (0..count).map(|_| random.rectangle(1_000_000, 200_000)).collect()
}

pub type Box = ([i64; 2], [i64; 2]);

pub fn corners(rectangle: &Rectangle<[i64; 2]>) -> Box {
    (rectangle.lower(), rectangle.upper())
}

pub fn do_meet(a: Box, b: Box) -> bool {
    (0..2).all(|i| a.0[i] <= b.1[i] && b.0[i] <= a.1[i])
}

pub fn lies_in(inner: Box, outer: Box) -> bool {
    (0..2).all(|i| outer.0[i] <= inner.0[i] && inner.1[i] <= outer.1[i])
}

pub fn distance_2(of: Box, point: [i64; 2]) -> i64 {
    let side = |i: usize| (of.0[i] - point[i]).max(point[i] - of.1[i]).max(0);
    side(0) * side(0) + side(1) * side(1)
}

pub fn sorted<T: Ord>(items: impl IntoIterator<Item = T>) -> Vec<T> {
    let mut list: Vec<T> = items.into_iter().collect();
    list.sort();
    list
}
