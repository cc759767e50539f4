/// Objects at places, which are their IDs in the index. A place that is left is used again.
pub(crate) struct Slab<T> {
    places: Vec<Option<T>>,
    free: Vec<usize>,
}

impl<T> Slab<T> {
    pub fn new(objects: Vec<T>) -> Self {
        Slab { places: objects.into_iter().map(Some).collect(), free: Vec::new() }
    }

    /// The place that the next object gets.
    pub fn next_id(&self) -> u64 {
        *self.free.last().unwrap_or(&self.places.len()) as u64
    }

    pub fn put(&mut self, object: T) {
        match self.free.pop() {
            Some(place) => self.places[place] = Some(object),
            None => self.places.push(Some(object)),
        }
    }

    pub fn take(&mut self, id: u64) -> T {
        let object = self.places[id as usize].take();
        self.free.push(id as usize);
        object.expect("an ID of the index has an object")
    }

    pub fn get(&self, id: u64) -> &T {
        let object = self.places[id as usize].as_ref();
        object.expect("an ID of the index has an object")
    }

    pub fn ids(&self) -> impl Iterator<Item = u64> + '_ {
        let is_there = |id: &u64| self.places[*id as usize].is_some();
        (0..self.places.len() as u64).filter(is_there)
    }

    pub fn iter(&self) -> std::iter::Flatten<std::slice::Iter<'_, Option<T>>> {
        self.places.iter().flatten()
    }

    pub fn iter_mut(&mut self) -> std::iter::Flatten<std::slice::IterMut<'_, Option<T>>> {
        self.places.iter_mut().flatten()
    }

    pub fn into_iter(self) -> std::iter::Flatten<std::vec::IntoIter<Option<T>>> {
        self.places.into_iter().flatten()
    }
}

#[cfg(test)]
mod tests {
    use super::Slab;

    #[test]
    fn a_place_is_used_again() {
        let mut slab = Slab::new(vec!['a', 'b']);
        assert_eq!((slab.take(0), slab.next_id()), ('a', 0));
        slab.put('c');
        assert_eq!((slab.next_id(), *slab.get(0)), (2, 'c'));
    }
}
