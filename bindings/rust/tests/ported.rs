//! rstar's own tests of the calls, over whole numbers in two dimensions.

mod common;

use common::{corners, distance_2, do_meet, lies_in, random_points, random_rectangles, sorted};
use vaikrone::primitives::{GeomWithData, Rectangle};
use vaikrone::{RTree, RTreeObject, AABB};

const SEED_1: u64 = 1;
const SEED_2: u64 = 2;

// src/rtree.rs

#[test]
fn insert_single() {
    let mut tree = RTree::new();
    tree.insert([2, 40]);
    assert_eq!(tree.size(), 1);
    assert!(tree.contains(&[2, 40]));
    assert!(!tree.contains(&[30, 20]));
}

#[test]
fn insert_many() {
    let points = random_points(1000, SEED_1);
    let mut tree = RTree::new();
    for (count, point) in points.iter().enumerate() {
        tree.insert(*point);
        assert_eq!(tree.size(), count + 1);
    }
    assert!(points.iter().all(|point| tree.contains(point)));
}

#[test]
fn remove_of_two() {
    let mut tree = RTree::bulk_load(vec![[0, 0], [1, 1]]);
    assert_eq!(tree.remove(&[1, 1]), Some([1, 1]));
    assert_eq!(tree.size(), 1);
}

#[test]
fn fmt_debug() {
    let tree = RTree::bulk_load(vec![[0, 1], [0, 1]]);
    assert_eq!(format!("{tree:?}"), "RTree { size: 2, items: {[0, 1], [0, 1]} }");
}

#[test]
fn default() {
    let tree: RTree<[i64; 2]> = Default::default();
    assert_eq!(tree.size(), 0);
}

#[test]
fn insert_beside_a_line_that_was_loaded() {
    let loaded: Vec<_> = (0..40).map(|i| [1080, 37 * i % 400]).collect();
    let inserted: Vec<_> = (0..10).map(|i| [1060, 41 * i % 400]).collect();
    let mut tree = RTree::bulk_load(loaded.clone());
    for (count, point) in inserted.iter().enumerate() {
        tree.insert(*point);
        assert_eq!(tree.size(), 41 + count);
    }
    assert_eq!(sorted(tree), sorted([loaded, inserted].concat()));
}

// src/algorithm/bulk_load

#[test]
fn bulk_load_of_different_sizes() {
    for size in (0..100).map(|i| i * 7).chain([3000]) {
        let points = random_points(size, SEED_1);
        let tree = RTree::bulk_load(points.clone());
        assert_eq!(tree.size(), size);
        assert_eq!(sorted(tree.iter().copied()), sorted(points));
    }
}

#[test]
fn insert_and_remove_after_bulk_load() {
    for size in [25, 27, 97, 111, 385, 447] {
        let old = random_rectangles(size, SEED_1);
        let new = random_rectangles(size, SEED_2);
        let mut tree = RTree::bulk_load(old.clone());
        for (leaves, comes) in old.iter().zip(&new) {
            assert_eq!(tree.remove(leaves), Some(*leaves));
            tree.insert(*comes);
        }
        assert_eq!(tree.size(), size);
        assert!(new.iter().all(|rectangle| tree.contains(rectangle)));
    }
}

// src/algorithm/removal.rs

#[test]
fn remove_and_insert() {
    let points = random_points(1000, SEED_1);
    let later = random_points(1000, SEED_2);
    let mut tree = RTree::bulk_load(points.clone());
    for (leaves, comes) in points.iter().zip(&later) {
        assert!(tree.remove_at_point(*leaves).is_some());
        tree.insert(*comes);
    }
    assert_eq!(tree.size(), 1000);
    assert!(points.iter().all(|point| !tree.contains(point)));
    assert!(later.iter().all(|point| tree.contains(point)));
    assert!(later.iter().all(|point| tree.remove_at_point(*point).is_some()));
    assert_eq!(tree.size(), 0);
}

#[test]
fn remove_and_insert_rectangles() {
    let old = random_rectangles(1000, SEED_1);
    let new = random_rectangles(1000, SEED_2);
    let mut tree = RTree::bulk_load(old.clone());
    for (leaves, comes) in old.iter().zip(&new) {
        assert!(tree.remove(leaves).is_some());
        tree.insert(*comes);
    }
    assert_eq!(tree.size(), 1000);
    assert!(old.iter().all(|rectangle| !tree.contains(rectangle)));
    assert!(new.iter().all(|rectangle| tree.contains(rectangle)));
    assert!(new.iter().all(|rectangle| tree.remove(rectangle).is_some()));
    assert_eq!(tree.size(), 0);
}

#[test]
fn remove_at_point() {
    let points = random_points(1000, SEED_1);
    let mut tree = RTree::bulk_load(points.clone());
    for (gone, point) in points.iter().enumerate() {
        assert_eq!(tree.remove_at_point(*point), Some(*point));
        assert_eq!(tree.remove_at_point([2_000_000, 2_000_000]), None);
        assert_eq!(tree.size(), 999 - gone);
    }
}

#[test]
fn remove_twice() {
    let rectangles = random_rectangles(1000, SEED_1);
    let mut tree = RTree::bulk_load(rectangles.clone());
    for (gone, rectangle) in rectangles.iter().enumerate() {
        assert!(tree.remove(rectangle).is_some());
        assert!(tree.remove(rectangle).is_none());
        assert_eq!(tree.size(), 999 - gone);
    }
}

/// An iterator of a drain that is dropped early, or forgotten, has taken all out already. In rstar the rest stays.
#[test]
fn drains() {
    let mut tree = RTree::bulk_load(random_points(1000, SEED_1));
    assert_eq!(tree.drain().take(250).count(), 250);
    assert_eq!(tree.size(), 0);
    let points = random_points(1000, SEED_2);
    points.iter().for_each(|point| tree.insert(*point));
    let envelope = AABB::from_corners([-700_000, -600_000], [200_000, 850_000]);
    let is_inside = |point: &&[i64; 2]| lies_in((**point, **point), ([-700_000, -600_000], [200_000, 850_000]));
    let wanted = points.iter().filter(is_inside).count();
    assert!((200..800).contains(&wanted));
    assert_eq!(tree.drain_in_envelope_intersecting(envelope).count(), wanted);
    assert_eq!(tree.locate_in_envelope_intersecting(envelope).count(), 0);
    assert_eq!(tree.size(), 1000 - wanted);
    std::mem::forget(tree.drain());
    assert_eq!(tree.size(), 0);
    tree.insert([1, 1]);
    assert_eq!(tree.iter().count(), 1);
}

#[test]
fn drain_within_distance_of_an_empty_tree() {
    let mut tree: RTree<[i64; 2]> = RTree::new();
    assert_eq!(tree.drain_within_distance([0, 0], 10).count(), 0);
    tree.insert([1, 2]);
    assert_eq!(tree.remove(&[1, 2]), Some([1, 2]));
    assert_eq!(tree.drain_within_distance([0, 0], 10).count(), 0);
    assert_eq!(tree.size(), 0);
}

#[test]
fn into_iter() {
    let points = random_points(100, SEED_1);
    let tree = RTree::bulk_load(points.clone());
    assert_eq!(sorted(tree), sorted(points));
}

// src/algorithm/iterators.rs

#[test]
fn locate_all() {
    let rectangles = random_rectangles(400, SEED_1);
    let tree = RTree::bulk_load(rectangles.clone());
    let mut most = 0;
    for point in random_points(20, SEED_1) {
        let wanted = rectangles.iter().filter(|r| lies_in((point, point), corners(r)));
        let found = sorted(tree.locate_all_at_point(point));
        assert_eq!(found, sorted(wanted));
        assert_eq!(tree.locate_at_point(point).is_some(), !found.is_empty());
        most = most.max(found.len());
    }
    assert!(most > 1);
}

#[test]
fn locate_in_envelope() {
    let points = random_points(100, SEED_1);
    let tree = RTree::bulk_load(points.clone());
    let area = ([-500_000, -500_000], [500_000, 1_000_000]);
    let wanted = sorted(points.iter().filter(|point| lies_in((**point, **point), area)));
    assert!((10..90).contains(&wanted.len()));
    assert_eq!(sorted(tree.locate_in_envelope(AABB::from_corners(area.0, area.1))), wanted);
}

#[test]
fn iteration() {
    let points = random_points(1000, SEED_1);
    let mut tree = RTree::new();
    points.iter().for_each(|point| tree.insert(*point));
    assert_eq!(sorted(tree.iter().copied()), sorted(points.clone()));
    assert_eq!(sorted(tree.iter_mut().map(|point| *point)), sorted(points.clone()));
    assert_eq!(sorted(&tree), sorted(&points));
}

#[test]
fn locate_within_distance() {
    let points = random_points(100, SEED_1);
    let tree = RTree::bulk_load(points.clone());
    let (origin, radius_2) = ([200_000, 600_000], 400_000_000_000);
    let wanted = sorted(points.iter().filter(|p| distance_2((**p, **p), origin) <= radius_2));
    assert!((10..90).contains(&wanted.len()));
    assert_eq!(sorted(tree.locate_within_distance(origin, radius_2)), wanted);
}

#[test]
fn locate_within_distance_of_an_empty_tree() {
    let tree: RTree<[i64; 2]> = RTree::new();
    assert_eq!(tree.locate_within_distance([0, 0], 10).count(), 0);
}

// src/algorithm/nearest_neighbor.rs

#[test]
fn neighbors_in_an_empty_tree() {
    let tree: RTree<[i64; 2]> = RTree::new();
    assert!(tree.nearest_neighbor([0, 213]).is_none());
    assert!(tree.nearest_neighbors(&[0, 213]).is_empty());
    assert!(tree.nearest_neighbor_iter([0, 213]).next().is_none());
}

#[test]
fn nearest_neighbor() {
    let points = random_points(1000, SEED_1);
    let tree = RTree::bulk_load(points.clone());
    for sample in random_points(100, SEED_2) {
        let least = points.iter().map(|p| distance_2((*p, *p), sample)).min().unwrap();
        let nearest = tree.nearest_neighbor(sample).unwrap();
        assert!(points.contains(nearest));
        assert_eq!(distance_2((*nearest, *nearest), sample), least);
    }
}

#[test]
fn nearest_neighbors() {
    let points: Vec<_> = (0..900).map(|i| [i / 30, i % 30]).collect();
    let tree = RTree::bulk_load(points.clone());
    for sample in [[-3, -3], [7, 40], [15, -9], [0, 0], [29, 31]] {
        let least = points.iter().map(|p| distance_2((*p, *p), sample)).min().unwrap();
        let wanted = points.iter().filter(|p| distance_2((**p, **p), sample) == least);
        assert_eq!(sorted(tree.nearest_neighbors(&sample)), sorted(wanted));
    }
    let of_four = RTree::bulk_load(vec![[0, 0], [0, 1], [1, 0], [9, 9]]);
    assert_eq!(sorted(of_four.nearest_neighbors(&[1, 1])), [&[0, 1], &[1, 0]]);
}

#[test]
fn nearest_neighbor_iterator() {
    let points = random_points(1000, SEED_1);
    let tree = RTree::bulk_load(points.clone());
    for sample in random_points(50, SEED_2) {
        let wanted = sorted(points.iter().map(|p| (distance_2((*p, *p), sample), p)));
        let found = tree.nearest_neighbor_iter_with_distance_2(sample);
        let found: Vec<_> = found.map(|(point, distance)| (distance, point)).collect();
        assert!(found.is_sorted_by_key(|neighbor| neighbor.0));
        assert_eq!(sorted(found), wanted);
        let alone = tree.nearest_neighbor_iter(sample);
        assert!(alone.map(|p| distance_2((*p, *p), sample)).is_sorted());
    }
}

/// Each of a hundred equal points comes once, however the lists grow.
#[test]
fn nearest_neighbor_iterator_of_ties() {
    let objects: Vec<_> = (0..100).map(|i| GeomWithData::new([5, 5], i)).collect();
    let tree = RTree::bulk_load(objects);
    let numbers = tree.nearest_neighbor_iter([0, 0]).map(|found| found.data);
    assert_eq!(sorted(numbers), (0..100).collect::<Vec<_>>());
}

#[test]
fn pop_nearest_neighbor() {
    let mut tree = RTree::bulk_load(vec![[0, 0], [0, 1]]);
    assert_eq!(tree.pop_nearest_neighbor([0, 0]), Some([0, 0]));
    assert_eq!(tree.pop_nearest_neighbor([0, 0]), Some([0, 1]));
    assert_eq!(tree.pop_nearest_neighbor([0, 0]), None);
}

// src/algorithm/intersection_iterator.rs

#[test]
fn intersection_between_trees() {
    let ones = random_rectangles(100, SEED_1);
    let others = random_rectangles(42, SEED_2);
    let all = ones.iter().flat_map(|one| others.iter().map(move |other| (one, other)));
    let wanted = sorted(all.filter(|pair| do_meet(corners(pair.0), corners(pair.1))));
    assert!(wanted.len() > 10);
    let (first, second) = (RTree::bulk_load(ones.clone()), RTree::bulk_load(others.clone()));
    assert_eq!(sorted(first.intersection_candidates_with_other_tree(&second)), wanted);
}

#[test]
fn trivial_intersections() {
    let first = RTree::bulk_load(random_points(1000, SEED_1));
    let second = RTree::bulk_load(random_points(2000, SEED_2));
    assert_eq!(first.intersection_candidates_with_other_tree(&second).count(), 0);
    assert_eq!(first.intersection_candidates_with_other_tree(&first).count(), first.size());
}

#[test]
fn intersections_with_itself() {
    let rectangles = random_rectangles(100, SEED_1);
    let tree = RTree::bulk_load(rectangles.clone());
    let all = rectangles.iter().flat_map(|one| rectangles.iter().map(move |other| (one, other)));
    let wanted = sorted(all.filter(|pair| do_meet(corners(pair.0), corners(pair.1))));
    assert_eq!(sorted(tree.intersection_candidates_with_other_tree(&tree)), wanted);
    assert_eq!(2 * tree.intersecting_pairs().count() + 100, wanted.len());
}

// src/primitives

#[test]
fn objects_with_data() {
    let mut tree = RTree::new();
    tree.insert(GeomWithData::new(Rectangle::from_corners([0, 0], [0, 0]), ()));
    assert_eq!(tree.size(), 1);
    let label = |x, name| GeomWithData::new(Rectangle::from_corners([x, 0], [x + 1, 1]), name);
    let tree = RTree::bulk_load(vec![label(0, "one"), label(10, "two"), label(20, "three")]);
    let nearest = tree.nearest_neighbor([12, 3]).unwrap();
    assert_eq!((nearest.data, nearest.geom().lower()), ("two", [10, 0]));
}

#[test]
fn rectangle_distance() {
    let tree = RTree::bulk_load(vec![Rectangle::from_corners([10, 20], [5, 5])]);
    let distance = |x, y| tree.nearest_neighbor_with_distance_2([x, y]).unwrap().1;
    assert_eq!([distance(5, 5), distance(0, 5), distance(5, 10)], [0, 25, 0]);
    assert_eq!([distance(0, 0), distance(0, 10), distance(10, 30)], [50, 25, 100]);
    assert_eq!(distance(i64::MIN, 0), i64::MAX);
}

// The examples of rstar's pages.

#[test]
fn examples_of_envelopes() {
    let tree = RTree::bulk_load(vec![[0, 0], [0, 10], [10, 10]]);
    assert_eq!(tree.locate_in_envelope(AABB::from_corners([0, 0], [5, 10])).count(), 2);
    assert_eq!(tree.locate_in_envelope(AABB::from_corners([0, 0], [10, 10])).count(), 3);
    let tree = RTree::bulk_load(vec![Rectangle::from_corners([0, 0], [10, 10])]);
    let point = AABB::from_point([5, 5]);
    assert_eq!(tree.locate_in_envelope(point).count(), 0);
    assert_eq!(tree.locate_in_envelope_intersecting(point).count(), 1);
    let [left, middle, right] =
        [[0, 4], [3, 7], [6, 10]].map(|[from, to]| Rectangle::from_corners([from, 0], [to, 10]));
    let tree = RTree::bulk_load(vec![left, middle, right]);
    assert_eq!(tree.locate_in_envelope_intersecting(left.envelope()).count(), 2);
    assert_eq!(tree.locate_in_envelope_intersecting(middle.envelope()).count(), 3);
}

#[test]
fn examples_of_points() {
    let rectangles = vec![Rectangle::from_corners([0, 0], [2, 2]), Rectangle::from_corners([1, 1], [3, 3])];
    let mut tree = RTree::bulk_load(rectangles);
    assert_eq!(tree.locate_all_at_point([1, 1]).count(), 2);
    assert_eq!(tree.locate_all_at_point([0, 0]).count(), 1);
    assert_eq!(tree.locate_all_at_point([-1, 0]).count(), 0);
    assert!(tree.remove_at_point([2, 2]).is_some());
    assert!(tree.remove_at_point([2, 2]).is_some());
    assert!(tree.remove_at_point([2, 2]).is_none());
}
