//! What a caller's types may do, and lists at the edges of their room.

mod common;

use common::sorted;
use std::cell::Cell;
use std::panic::{catch_unwind, AssertUnwindSafe};
use std::rc::Rc;
use vaikrone::primitives::GeomWithData;
use vaikrone::{Envelope, RTree, RTreeObject, AABB};

/// A box whose name alone counts for equality, and which panics where it is told to.
#[derive(Debug)]
struct Named {
    name: char,
    corners: Cell<([i64; 2], [i64; 2])>,
    calls_left: Rc<Cell<usize>>,
}

fn named(name: char, lower: [i64; 2], upper: [i64; 2]) -> Named {
    Named { name, corners: Cell::new((lower, upper)), calls_left: Rc::new(Cell::new(usize::MAX)) }
}

impl Named {
    fn count(&self) {
        let left = self.calls_left.get();
        assert!(left > 0, "no call is left");
        self.calls_left.set(left - 1);
    }
}

impl PartialEq for Named {
    fn eq(&self, other: &Self) -> bool {
        self.count();
        self.name == other.name
    }
}

impl Clone for Named {
    fn clone(&self) -> Self {
        self.count();
        let (lower, upper) = self.corners.get();
        named(self.name, lower, upper)
    }
}

impl RTreeObject for Named {
    type Envelope = Envelope;

    fn envelope(&self) -> Envelope {
        self.count();
        let (lower, upper) = self.corners.get();
        AABB::from_corners(lower, upper)
    }
}

#[test]
fn an_equal_object_has_an_equal_envelope() {
    let mut tree = RTree::bulk_load(vec![named('a', [1, 1], [2, 2])]);
    let larger = named('a', [0, 0], [9, 9]);
    assert!(!tree.contains(&larger));
    assert_eq!(tree.remove(&larger), None);
    tree.insert(larger.clone());
    let taken = tree.remove(&larger).expect("it is there");
    assert_eq!(taken.corners.get(), ([0, 0], [9, 9]));
    assert!(tree.contains(&named('a', [1, 1], [2, 2])));
}

#[test]
fn an_object_whose_envelope_changed_stays() {
    let mut tree = RTree::bulk_load(vec![named('a', [1, 1], [1, 1]), named('b', [1, 1], [1, 1])]);
    for object in tree.iter().filter(|object| object.name == 'a') {
        object.corners.set(([7, 7], [7, 7]));
    }
    assert_eq!(tree.remove(&named('a', [7, 7], [7, 7])), None);
    assert_eq!(tree.remove_at_point([1, 1]).map(|taken| taken.name), Some('b'));
    assert_eq!(tree.remove_at_point([1, 1]), None);
    assert_eq!(tree.size(), 1);
    let found = tree.pop_nearest_neighbor([1, 1]).map(|taken| taken.name);
    assert_eq!((found, tree.size()), (Some('a'), 0));
}

/// Whichever call of the caller's code panics, the tree has what it had.
#[test]
fn panics_leave_the_tree_whole() {
    let calls_left = Rc::new(Cell::new(usize::MAX));
    let make = |name, at| {
        let mut object = named(name, [at, at], [at, at]);
        object.calls_left = calls_left.clone();
        object
    };
    let objects = (0..40).map(|i| make(char::from(b'A' + i as u8), i / 4));
    let mut tree = RTree::bulk_load(objects.collect());
    let wanted = make('A', 0);
    type Step<'a> = &'a dyn Fn(&mut RTree<Named>);
    let steps: [Step; 5] = [
        &|tree| tree.insert(make('z', 3)),
        &|tree| _ = tree.contains(&wanted),
        &|tree| _ = tree.remove(&wanted),
        &|tree| _ = tree.remove_at_point([0, 0]),
        &|tree| _ = tree.clone(),
    ];
    let mut panics = 0;
    for step in steps {
        for calls in 0.. {
            calls_left.set(calls);
            let size = tree.size();
            let is_done = catch_unwind(AssertUnwindSafe(|| step(&mut tree))).is_ok();
            calls_left.set(usize::MAX);
            let area = AABB::from_corners([0, 0], [9, 9]);
            assert_eq!(tree.locate_in_envelope(area).count(), tree.size());
            assert_eq!(tree.iter().count(), tree.size());
            if is_done {
                break;
            }
            assert_eq!(tree.size(), size);
            panics += 1;
        }
    }
    assert!(panics > 40, "{panics}");
}

#[derive(Clone, Copy, Debug, PartialEq)]
struct Nothing;

impl RTreeObject for Nothing {
    type Envelope = Envelope;

    fn envelope(&self) -> Envelope {
        AABB::from_corners([i64::MIN, i64::MIN], [i64::MAX, i64::MAX])
    }
}

#[test]
fn objects_of_no_size_at_the_ends_of_the_range() {
    let mut tree = RTree::bulk_load(vec![Nothing; 100]);
    tree.insert(Nothing);
    assert_eq!(tree.locate_all_at_point([i64::MAX, i64::MIN]).count(), 101);
    assert_eq!(tree.remove(&Nothing), Some(Nothing));
    assert_eq!(tree.drain_within_distance([0, 0], 0).count(), 100);
    let mut tree = RTree::bulk_load(vec![[i64::MIN, i64::MAX]]);
    let far = [i64::MAX, i64::MIN];
    assert_eq!(tree.nearest_neighbor_with_distance_2(far), Some((&[i64::MIN, i64::MAX], i64::MAX)));
    assert_eq!(tree.locate_within_distance(far, i64::MAX - 1).count(), 0);
    assert_eq!(tree.drain_within_distance(far, i64::MAX).count(), 1);
}

/// Answers longer and shorter than the room that earlier ones left.
#[test]
fn answers_of_each_length() {
    let counts = [0, 1, 15, 16, 17, 32, 33, 64, 65, 1023, 1024, 1025, 40, 3000, 2, 0];
    let ids = |count: usize| (0..count).collect::<Vec<_>>();
    let at = |count: usize| [count as i64 * 10, 0];
    let objects = counts.iter().enumerate().flat_map(|(turn, count)| {
        let objects = ids(*count).into_iter();
        objects.map(move |id| GeomWithData::new(at(turn), id))
    });
    let mut tree = RTree::bulk_load(objects.collect());
    for (turn, count) in counts.into_iter().enumerate() {
        let found = tree.locate_all_at_point(at(turn)).map(|found| found.data);
        assert_eq!(sorted(found), ids(count));
        let near = tree.nearest_neighbor_iter(at(turn)).take(count);
        assert_eq!(sorted(near.map(|found| found.data)), ids(count));
    }
    for (turn, count) in counts.into_iter().enumerate() {
        let drained = tree.drain_in_envelope(AABB::from_point(at(turn)));
        assert_eq!(sorted(drained.map(|taken| taken.data)), ids(count));
    }
    assert_eq!(tree.size(), 0);
}

/// Two answers of a tree at a time do not share their room.
#[test]
fn answers_beside_each_other() {
    let tree = RTree::bulk_load(vec![[0, 0], [1, 1], [2, 2]]);
    let some = tree.locate_all_at_point([1, 1]);
    let all = tree.locate_in_envelope(AABB::from_corners([0, 0], [2, 2]));
    assert_eq!(sorted(some), [&[1, 1]]);
    assert_eq!(sorted(all), [&[0, 0], &[1, 1], &[2, 2]]);
}

#[test]
fn a_drain_that_is_dropped_drops_its_objects() {
    let counted = Rc::new(());
    let objects = (0..10).map(|i| GeomWithData::new([i, 0], counted.clone()));
    let mut tree = RTree::bulk_load(objects.collect());
    drop(tree.drain_in_envelope(AABB::from_corners([0, 0], [3, 0])));
    assert_eq!((tree.size(), Rc::strong_count(&counted)), (6, 7));
    assert!(tree.drain_within_distance([4, 0], 1).next().is_some());
    assert_eq!((tree.size(), Rc::strong_count(&counted)), (4, 5));
    drop(tree);
    assert_eq!(Rc::strong_count(&counted), 1);
}
