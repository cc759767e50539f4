use crate::ffi::{Index, Nearest};
use crate::slab::Slab;
use crate::{Envelope, Point, RTreeObject};
use std::fmt;
use std::iter::Flatten;

/// A tree of objects, each of which stands in it with its envelope. Threads cannot share it:
///
/// ```compile_fail
/// fn is_shared<T: Sync>() {}
/// is_shared::<vaikrone::RTree<[i64; 2]>>();
/// ```
pub struct RTree<T> {
    index: Index,
    objects: Slab<T>,
}

impl<T> RTree<T> {
    /// A tree of no object.
    pub fn new() -> Self {
        RTree { index: Index::new(), objects: Slab::new(Vec::new()) }
    }

    /// The number of objects.
    pub fn size(&self) -> usize {
        self.index.len()
    }

    /// All objects.
    pub fn iter(&self) -> impl Iterator<Item = &T> {
        self.objects.iter()
    }

    /// All objects, to write. It is an error to change an envelope: the tree finds the object by its
    /// old one, and does not remove it.
    pub fn iter_mut(&mut self) -> impl Iterator<Item = &mut T> {
        self.objects.iter_mut()
    }

    /// Takes all objects out.
    pub fn drain(&mut self) -> impl Iterator<Item = T> {
        std::mem::take(self).into_iter()
    }

    fn found(&self, ids: Vec<u64>) -> impl Iterator<Item = &T> {
        ids.into_iter().map(|id| self.objects.get(id))
    }

    fn taken(&mut self, ids: Vec<u64>) -> std::vec::IntoIter<T> {
        let objects: Vec<T> = ids.into_iter().map(|id| self.objects.take(id)).collect();
        objects.into_iter()
    }
}

impl<T: RTreeObject<Envelope = Envelope>> RTree<T> {
    /// A tree of some objects, loaded at once. That is faster than to insert each, and makes a better tree.
    pub fn bulk_load(elements: Vec<T>) -> Self {
        let boxes: Vec<Envelope> = elements.iter().map(T::envelope).collect();
        let ids: Vec<u64> = (0..elements.len() as u64).collect();
        let mut index = Index::new();
        index.load(&boxes, &ids);
        RTree { index, objects: Slab::new(elements) }
    }

    /// Puts an object in. An object that is there already stands in the tree twice then.
    pub fn insert(&mut self, t: T) {
        self.index.insert(self.objects.next_id(), &t.envelope());
        self.objects.put(t);
    }

    /// Whether there is an object that is equal, and has an equal envelope.
    pub fn contains(&self, t: &T) -> bool
    where
        T: PartialEq,
    {
        let envelope = t.envelope();
        let mut inside = self.index.inside(&envelope).into_iter();
        inside.any(|id| self.objects.get(id) == t && self.index.contains(id, &envelope))
    }

    /// Takes one object out that is equal, and has an equal envelope.
    pub fn remove(&mut self, t: &T) -> Option<T>
    where
        T: PartialEq,
    {
        let envelope = t.envelope();
        let mut inside = self.index.inside(&envelope).into_iter();
        let id = inside.find(|id| self.objects.get(*id) == t && self.index.remove(*id, &envelope))?;
        Some(self.objects.take(id))
    }

    /// Takes one object out whose envelope contains a point.
    pub fn remove_at_point(&mut self, point: Point) -> Option<T> {
        let mut at = self.index.at(&point).into_iter();
        let id = at.find(|id| self.index.remove(*id, &self.objects.get(*id).envelope()))?;
        Some(self.objects.take(id))
    }

    /// The objects whose envelopes lie inside one.
    pub fn locate_in_envelope(&self, envelope: Envelope) -> impl Iterator<Item = &T> {
        self.found(self.index.inside(&envelope))
    }

    /// The objects whose envelopes meet one; touching is enough.
    pub fn locate_in_envelope_intersecting(&self, envelope: Envelope) -> impl Iterator<Item = &T> {
        self.found(self.index.meeting(&envelope))
    }

    /// The objects whose envelopes contain a point.
    pub fn locate_all_at_point(&self, point: Point) -> impl Iterator<Item = &T> {
        self.found(self.index.at(&point))
    }

    /// An object whose envelope contains a point.
    pub fn locate_at_point(&self, point: Point) -> Option<&T> {
        self.locate_all_at_point(point).next()
    }

    /// The objects whose squared distance from a point is at most `max_squared_radius`.
    pub fn locate_within_distance(&self, query_point: Point, max_squared_radius: i64) -> impl Iterator<Item = &T> {
        self.found(self.index.within(&query_point, max_squared_radius))
    }

    /// An object that is nearest to a point.
    pub fn nearest_neighbor(&self, query_point: Point) -> Option<&T> {
        let nearest = self.nearest_neighbor_with_distance_2(query_point)?;
        Some(nearest.0)
    }

    /// An object that is nearest to a point, with its squared distance.
    pub fn nearest_neighbor_with_distance_2(&self, query_point: Point) -> Option<(&T, i64)> {
        let (id, distance_2) = self.index.nearest(&query_point, 1, 0).next()?;
        Some((self.objects.get(id), distance_2))
    }

    /// All objects at the least distance from a point.
    pub fn nearest_neighbors(&self, query_point: &Point) -> Vec<&T> {
        match self.nearest_neighbor_with_distance_2(*query_point) {
            Some((_, least)) => self.locate_within_distance(*query_point, least).collect(),
            None => Vec::new(),
        }
    }

    /// All objects, the nearest to a point first. The tree is asked for the 16 nearest, and for four times
    /// as many whenever these are used up.
    pub fn nearest_neighbor_iter(&self, query_point: Point) -> impl Iterator<Item = &T> {
        let neighbors = self.nearest_neighbor_iter_with_distance_2(query_point);
        neighbors.map(|neighbor| neighbor.0)
    }

    /// The same, each with its squared distance.
    pub fn nearest_neighbor_iter_with_distance_2(&self, query_point: Point) -> impl Iterator<Item = (&T, i64)> {
        let neighbors = Neighbors {
            index: &self.index,
            point: query_point,
            asked: 0,
            batch: self.index.nearest(&query_point, 0, 0),
        };
        neighbors.map(|(id, distance_2)| (self.objects.get(id), distance_2))
    }

    /// Takes an object out that is nearest to a point.
    pub fn pop_nearest_neighbor(&mut self, query_point: Point) -> Option<T> {
        let id = self.index.pop_nearest(&query_point)?;
        Some(self.objects.take(id))
    }

    /// Takes the objects out whose envelopes lie inside one.
    pub fn drain_in_envelope(&mut self, envelope: Envelope) -> impl Iterator<Item = T> {
        let ids = self.index.drain_inside(&envelope);
        self.taken(ids)
    }

    /// Takes the objects out whose envelopes meet one; touching is enough.
    pub fn drain_in_envelope_intersecting(&mut self, envelope: Envelope) -> impl Iterator<Item = T> {
        let ids = self.index.drain_meeting(&envelope);
        self.taken(ids)
    }

    /// Takes the objects out whose squared distance from a point is at most `max_squared_radius`.
    pub fn drain_within_distance(&mut self, query_point: Point, max_squared_radius: i64) -> impl Iterator<Item = T> {
        let ids = self.index.drain_within(&query_point, max_squared_radius);
        self.taken(ids)
    }

    /// The pairs of an object of this tree and one of another whose envelopes meet. The other may be this tree itself.
    pub fn intersection_candidates_with_other_tree<'a, U>(
        &'a self,
        other: &'a RTree<U>,
    ) -> impl Iterator<Item = (&'a T, &'a U)>
    where
        U: RTreeObject<Envelope = Envelope>,
    {
        let pairs = if std::ptr::eq(&self.index, &other.index) {
            self.pairs_with_itself()
        } else {
            self.index.pairs_between(&other.index)
        };
        let objects = move |(one, two)| (self.objects.get(one), other.objects.get(two));
        pairs.into_iter().map(objects)
    }

    /// Both orders of each pair, and each object with itself.
    fn pairs_with_itself(&self) -> Vec<(u64, u64)> {
        let mut pairs = self.index.pairs();
        let turned: Vec<_> = pairs.iter().map(|pair| (pair.1, pair.0)).collect();
        pairs.extend(turned);
        pairs.extend(self.objects.ids().map(|id| (id, id)));
        pairs
    }

    /// The pairs of two objects of the tree whose envelopes meet: each pair once, and none of an object with itself.
    pub fn intersecting_pairs(&self) -> impl Iterator<Item = (&T, &T)> {
        let pairs = self.index.pairs().into_iter();
        pairs.map(|(one, two)| (self.objects.get(one), self.objects.get(two)))
    }
}

/// Neighbours by growing lists, each of which begins with the one before.
struct Neighbors<'a> {
    index: &'a Index,
    point: Point,
    asked: usize,
    batch: Nearest,
}

impl Iterator for Neighbors<'_> {
    type Item = (u64, i64);

    fn next(&mut self) -> Option<(u64, i64)> {
        let given = self.asked;
        if self.batch.len() == 0 && given < self.index.len() {
            self.asked = (4 * given).max(16).min(self.index.len());
            self.batch = self.index.nearest(&self.point, self.asked, given);
        }
        self.batch.next()
    }
}

impl<T> Default for RTree<T> {
    fn default() -> Self {
        Self::new()
    }
}

impl<T: RTreeObject<Envelope = Envelope> + Clone> Clone for RTree<T> {
    /// The clone is loaded at once, so it answers in another order.
    fn clone(&self) -> Self {
        Self::bulk_load(self.iter().cloned().collect())
    }
}

impl<T: fmt::Debug> fmt::Debug for RTree<T> {
    fn fmt(&self, formatter: &mut fmt::Formatter<'_>) -> fmt::Result {
        struct Items<'a, T>(&'a RTree<T>);
        impl<T: fmt::Debug> fmt::Debug for Items<'_, T> {
            fn fmt(&self, formatter: &mut fmt::Formatter<'_>) -> fmt::Result {
                formatter.debug_set().entries(self.0.iter()).finish()
            }
        }
        let mut tree = formatter.debug_struct("RTree");
        tree.field("size", &self.size()).field("items", &Items(self)).finish()
    }
}

impl<T> IntoIterator for RTree<T> {
    type Item = T;
    type IntoIter = Flatten<std::vec::IntoIter<Option<T>>>;

    fn into_iter(self) -> Self::IntoIter {
        self.objects.into_iter()
    }
}

impl<'a, T> IntoIterator for &'a RTree<T> {
    type Item = &'a T;
    type IntoIter = Flatten<std::slice::Iter<'a, Option<T>>>;

    fn into_iter(self) -> Self::IntoIter {
        self.objects.iter()
    }
}

impl<'a, T> IntoIterator for &'a mut RTree<T> {
    type Item = &'a mut T;
    type IntoIter = Flatten<std::slice::IterMut<'a, Option<T>>>;

    fn into_iter(self) -> Self::IntoIter {
        self.objects.iter_mut()
    }
}
