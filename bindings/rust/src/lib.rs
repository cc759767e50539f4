//! rstar's calls over a tree of 64-bit rectangles whose answers are proved. The tree is that of the
//! C library `librstar.a`.
//!
//! ```
//! use vaikrone::primitives::{GeomWithData, Rectangle};
//! use vaikrone::{RTree, AABB};
//!
//! let fence = |lower, upper, name| GeomWithData::new(Rectangle::from_corners(lower, upper), name);
//! let mut tree = RTree::bulk_load(vec![fence([0, 0], [4, 4], "park"), fence([3, 3], [9, 9], "lake")]);
//! tree.insert(fence([20, 0], [22, 5], "mill"));
//! let mut names: Vec<_> = tree.locate_all_at_point([4, 3]).map(|found| found.data).collect();
//! names.sort();
//! assert_eq!(names, ["lake", "park"]);
//! assert_eq!(tree.nearest_neighbor([18, 0]).unwrap().data, "mill");
//! assert_eq!(tree.drain_in_envelope(AABB::from_corners([0, 0], [10, 10])).count(), 2);
//! assert_eq!(tree.size(), 1);
//! ```
//!
//! What differs from rstar:
//!
//! - Coordinates are `i64`, in two dimensions. Squared distances are held at `i64::MAX`.
//! - A distance is that of an object's envelope, and so is whether an object contains a point. For
//!   points and rectangles that is rstar's answer.
//! - An iterator finds all its answers when it is made, but for `nearest_neighbor_iter`. A drain takes
//!   all of them out then, also where it is dropped early.
//! - There is no selection function, no parameter, no `root`, and no variant `_mut` or `_int` but `iter_mut`.
//! - A tree may be sent to another thread, and one thread at a time may use it: [`RTree`] is `Send` and
//!   not `Sync`.
//!
//! Where memory is refused, the program aborts, as with `Vec`. Where the tree cannot count one more
//! rectangle, a call panics and has changed nothing.

#![deny(unsafe_code)]

mod aabb;
#[allow(unsafe_code)]
mod ffi;
mod object;
pub mod primitives;
mod rtree;
mod slab;

pub use aabb::AABB;
pub use object::RTreeObject;
pub use rtree::RTree;

/// A point of the tree.
pub type Point = [i64; 2];

/// The envelope of the tree's objects.
pub type Envelope = AABB<Point>;
