//! Random calls beside a list of the objects.

mod common;

use common::{corners, distance_2, do_meet, lies_in, sorted, Box, Random};
use vaikrone::primitives::{GeomWithData, Rectangle};
use vaikrone::{RTree, AABB};

type Object = GeomWithData<Rectangle<[i64; 2]>, u64>;

/// A tree, and the same objects in a list.
struct Both {
    random: Random,
    tree: RTree<Object>,
    list: Vec<Object>,
}

impl Both {
    fn object(&mut self) -> Object {
        let rectangle = self.random.rectangle(12, 5);
        GeomWithData::new(rectangle, self.random.below(3))
    }

    fn corners(&mut self) -> Box {
        corners(&self.random.rectangle(12, 8))
    }

    fn selected(&self, holds: impl Fn(Box) -> bool) -> Vec<&Object> {
        sorted(self.list.iter().filter(|object| holds(corners(object.geom()))))
    }

    fn change(&mut self) {
        match self.random.below(40) {
            0 => {
                let size = self.random.below(200);
                self.list = (0..size).map(|_| self.object()).collect();
                self.tree = RTree::bulk_load(self.list.clone());
            }
            1..=20 if self.list.len() < 200 => {
                let object = self.object();
                self.list.push(object);
                self.tree.insert(object);
            }
            21..=30 => self.remove(),
            31..=34 => self.pop(),
            35..=37 => self.drain(),
            _ => {}
        }
    }

    fn remove(&mut self) {
        let mut object = self.object();
        if !self.list.is_empty() && self.random.below(4) > 0 {
            object = self.list[self.random.below(self.list.len() as u64) as usize];
        }
        let place = self.list.iter().position(|other| *other == object);
        assert_eq!(self.tree.contains(&object), place.is_some());
        let removed = place.map(|place| self.list.swap_remove(place));
        assert_eq!(self.tree.remove(&object), removed);
    }

    fn pop(&mut self) {
        let point = self.random.point(15);
        let least = self.list.iter().map(|object| distance_2(corners(object.geom()), point)).min();
        let popped = self.tree.pop_nearest_neighbor(point);
        assert_eq!(popped.map(|object| distance_2(corners(object.geom()), point)), least);
        if let Some(popped) = popped {
            let place = self.list.iter().position(|other| *other == popped);
            self.list.swap_remove(place.expect("what is popped was there"));
        }
    }

    fn drain(&mut self) {
        let area = self.corners();
        let envelope = AABB::from_corners(area.0, area.1);
        let (point, radius_2) = (self.random.point(12), self.random.below(20) as i64);
        let kind = self.random.below(3);
        let leaves = |object: &Object| match kind {
            0 => lies_in(corners(object.geom()), area),
            1 => do_meet(corners(object.geom()), area),
            _ => distance_2(corners(object.geom()), point) <= radius_2,
        };
        let drained: Vec<Object> = match kind {
            0 => self.tree.drain_in_envelope(envelope).collect(),
            1 => self.tree.drain_in_envelope_intersecting(envelope).collect(),
            _ => self.tree.drain_within_distance(point, radius_2).collect(),
        };
        let (gone, left) = self.list.iter().partition(|object| leaves(object));
        self.list = left;
        assert_eq!(sorted(drained), sorted::<Object>(gone));
    }

    fn ask(&mut self) {
        let area = self.corners();
        let envelope = AABB::from_corners(area.0, area.1);
        let (point, radius_2) = (self.random.point(15), self.random.below(60) as i64);
        let tree = &self.tree;
        assert_eq!(tree.size(), self.list.len());
        assert_eq!(sorted(tree), self.selected(|_| true));
        let inside = tree.locate_in_envelope(envelope);
        assert_eq!(sorted(inside), self.selected(|of| lies_in(of, area)));
        let meeting = tree.locate_in_envelope_intersecting(envelope);
        assert_eq!(sorted(meeting), self.selected(|of| do_meet(of, area)));
        let at_point = tree.locate_all_at_point(point);
        assert_eq!(sorted(at_point), self.selected(|of| lies_in((point, point), of)));
        let within = tree.locate_within_distance(point, radius_2);
        assert_eq!(sorted(within), self.selected(|of| distance_2(of, point) <= radius_2));
        self.ask_neighbors(point);
    }

    fn ask_neighbors(&self, point: [i64; 2]) {
        let found: Vec<_> = self.tree.nearest_neighbor_iter_with_distance_2(point).collect();
        assert!(found.is_sorted_by_key(|neighbor| neighbor.1));
        for (object, distance) in &found {
            assert_eq!(distance_2(corners(object.geom()), point), *distance);
        }
        assert_eq!(sorted(found.iter().map(|neighbor| neighbor.0)), self.selected(|_| true));
        assert_eq!(
            sorted(self.tree.nearest_neighbors(&point)),
            self.selected(|of| { distance_2(of, point) == found[0].1 })
        );
    }

    fn ask_pairs(&self) {
        let both_ways = self.tree.intersection_candidates_with_other_tree(&self.tree);
        let all = self.list.iter().flat_map(|one| self.list.iter().map(move |other| (one, other)));
        let meet = |pair: &(&Object, &Object)| do_meet(corners(pair.0.geom()), corners(pair.1.geom()));
        assert_eq!(sorted(both_ways), sorted(all.filter(meet)));
    }
}

#[test]
fn random_calls() {
    let mut both = Both { random: Random(7), tree: RTree::new(), list: Vec::new() };
    for call in 0..20_000 {
        both.change();
        if call % 5 == 0 {
            both.ask();
        }
        if call % 500 == 0 {
            both.ask_pairs();
        }
    }
}

#[test]
fn a_tree_is_sent_to_another_thread() {
    let tree = RTree::bulk_load(vec![[1, 2], [3, 4]]);
    let counted = std::thread::spawn(move || tree.locate_all_at_point([3, 4]).count());
    assert_eq!(counted.join().unwrap(), 1);
}

#[test]
fn a_clone_has_its_own_objects() {
    let mut tree = RTree::bulk_load(vec![[1, 2], [3, 4]]);
    let clone = tree.clone();
    tree.remove(&[1, 2]);
    assert_eq!(sorted(clone), [[1, 2], [3, 4]]);
    assert_eq!(sorted(tree), [[3, 4]]);
}
