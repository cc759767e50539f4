//! The calls of rstar.h, safely: all `unsafe` of the crate stands here.
//!
//! What the library asks of its caller holds thus. A handle is made empty, lives in an [`Index`] that
//! nothing copies, and is cleared with it. No pointer of a slice or a reference is null. Each array is
//! filled before the call, and is a list of its own.

use crate::{Envelope, Point};
use std::cell::{Cell, UnsafeCell};
use std::ffi::c_void;
use std::iter::{Skip, Zip};
use std::vec::IntoIter;

type Status = i32;
const OK: Status = 0;
const NO_MEMORY: Status = 1;
const TOO_MANY: Status = 2;

#[repr(C)]
struct Handle {
    is_made: bool,
    at: *mut c_void,
}

// The types of a call that answers IDs to a question, and of one that takes these rectangles out.
type Ask<Question> = unsafe extern "C" fn(*mut Handle, *const Question, *mut u64, usize) -> usize;
type Drain<Question> = unsafe extern "C" fn(*mut Handle, *const Question, *mut u64, usize, *mut usize) -> Status;

extern "C" {
    fn rstar_index_clear(index: *mut Handle);
    fn rstar_index_len(index: *mut Handle) -> usize;
    fn rstar_index_load(
        index: *mut Handle,
        boxes: *const Envelope,
        boxes_len: usize,
        ids: *const u64,
        ids_len: usize,
    ) -> Status;
    fn rstar_index_insert(index: *mut Handle, id: u64, of: *const Envelope) -> Status;
    fn rstar_index_remove(index: *mut Handle, id: u64, of: *const Envelope) -> bool;
    fn rstar_index_contains(index: *mut Handle, id: u64, of: *const Envelope) -> bool;
    fn rstar_index_meeting(index: *mut Handle, of: *const Envelope, ids: *mut u64, ids_len: usize) -> usize;
    fn rstar_index_inside(index: *mut Handle, of: *const Envelope, ids: *mut u64, ids_len: usize) -> usize;
    fn rstar_index_at(index: *mut Handle, point: *const Point, ids: *mut u64, ids_len: usize) -> usize;
    fn rstar_index_within(
        index: *mut Handle,
        point: *const Point,
        distance: i64,
        ids: *mut u64,
        ids_len: usize,
    ) -> usize;
    fn rstar_index_nearest(
        index: *mut Handle,
        point: *const Point,
        ids: *mut u64,
        ids_len: usize,
        distances: *mut i64,
        distances_len: usize,
        found: *mut usize,
    ) -> Status;
    fn rstar_index_pairs(
        index: *mut Handle,
        first: *mut u64,
        first_len: usize,
        second: *mut u64,
        second_len: usize,
        found: *mut usize,
    ) -> Status;
    fn rstar_index_pairs_between(
        index: *mut Handle,
        other: *mut Handle,
        first: *mut u64,
        first_len: usize,
        second: *mut u64,
        second_len: usize,
        found: *mut usize,
    ) -> Status;
    fn rstar_index_drain_meeting(
        index: *mut Handle,
        of: *const Envelope,
        ids: *mut u64,
        ids_len: usize,
        found: *mut usize,
    ) -> Status;
    fn rstar_index_drain_inside(
        index: *mut Handle,
        of: *const Envelope,
        ids: *mut u64,
        ids_len: usize,
        found: *mut usize,
    ) -> Status;
    fn rstar_index_drain_within(
        index: *mut Handle,
        point: *const Point,
        distance: i64,
        ids: *mut u64,
        ids_len: usize,
        found: *mut usize,
    ) -> Status;
    fn rstar_index_pop_nearest(
        index: *mut Handle,
        point: *const Point,
        id: *mut u64,
        of: *mut Envelope,
        distance: *mut i64,
        found: *mut bool,
    ) -> Status;
}

/// Ends the program where memory was refused, and panics where the tree is full.
fn require(status: Status) {
    match status {
        OK => {}
        NO_MEMORY => {
            eprintln!("vaikrone: memory was refused");
            std::process::abort();
        }
        TOO_MANY => panic!("the tree cannot count one more rectangle"),
        other => unreachable!("status {other}"),
    }
}

/// The longest room that is kept for the next question, so that IDs are copied out of it. A longer one is given away.
const LONGEST_ROOM: usize = 1024;

/// The nearest, the nearest first: their IDs and their squared distances.
pub(crate) type Nearest = Skip<Zip<IntoIter<u64>, IntoIter<i64>>>;

/// Rectangles with IDs: a handle of the library. It is not `Sync`, since a question uses its handle alone.
pub(crate) struct Index {
    handle: UnsafeCell<Handle>,
    room: Cell<Vec<u64>>,
}

// SAFETY: a handle and its memory belong to no thread.
unsafe impl Send for Index {}

impl Index {
    pub fn new() -> Self {
        let at = std::ptr::null_mut();
        Index { handle: UnsafeCell::new(Handle { is_made: false, at }), room: Cell::default() }
    }

    /// All answers of a call that writes as many as there is room for, and says how many there are.
    fn all_ids(&self, mut call: impl FnMut(&mut [u64], &mut usize) -> Status) -> Vec<u64> {
        let (mut room, mut found) = (self.room.take(), 0);
        let mut status = call(&mut room, &mut found);
        if found > room.len() {
            room.resize(found, 0);
            status = call(&mut room, &mut found);
        }
        require(status);
        if found > LONGEST_ROOM {
            return room;
        }
        let ids = room[..found].to_vec();
        self.room.set(room);
        ids
    }

    /// The same for pairs.
    fn all_pairs(&self, mut call: impl FnMut(&mut [u64], &mut [u64], &mut usize) -> Status) -> Vec<(u64, u64)> {
        let mut second = Vec::new();
        let first = self.all_ids(|first, found| {
            second.resize(first.len(), 0);
            call(first, &mut second, found)
        });
        first.into_iter().zip(second).collect()
    }

    // SAFETY of each call below: the handle is used by this call alone, since an index is not `Sync`
    // and the library calls nothing of this crate.

    pub fn len(&self) -> usize {
        unsafe { rstar_index_len(self.handle.get()) }
    }

    pub fn load(&mut self, boxes: &[Envelope], ids: &[u64]) {
        require(unsafe { rstar_index_load(self.handle.get(), boxes.as_ptr(), boxes.len(), ids.as_ptr(), ids.len()) });
    }

    pub fn insert(&mut self, id: u64, envelope: &Envelope) {
        require(unsafe { rstar_index_insert(self.handle.get(), id, envelope) });
    }

    pub fn remove(&mut self, id: u64, envelope: &Envelope) -> bool {
        unsafe { rstar_index_remove(self.handle.get(), id, envelope) }
    }

    pub fn contains(&self, id: u64, envelope: &Envelope) -> bool {
        unsafe { rstar_index_contains(self.handle.get(), id, envelope) }
    }

    fn ask<Question>(&self, call: Ask<Question>, question: &Question) -> Vec<u64> {
        self.all_ids(|ids, found| {
            *found = unsafe { call(self.handle.get(), question, ids.as_mut_ptr(), ids.len()) };
            OK
        })
    }

    fn drain<Question>(&mut self, call: Drain<Question>, question: &Question) -> Vec<u64> {
        self.all_ids(|ids, found| unsafe { call(self.handle.get(), question, ids.as_mut_ptr(), ids.len(), found) })
    }

    pub fn meeting(&self, envelope: &Envelope) -> Vec<u64> {
        self.ask(rstar_index_meeting, envelope)
    }

    pub fn inside(&self, envelope: &Envelope) -> Vec<u64> {
        self.ask(rstar_index_inside, envelope)
    }

    pub fn at(&self, point: &Point) -> Vec<u64> {
        self.ask(rstar_index_at, point)
    }

    pub fn within(&self, point: &Point, distance: i64) -> Vec<u64> {
        self.all_ids(|ids, found| {
            let at = ids.as_mut_ptr();
            *found = unsafe { rstar_index_within(self.handle.get(), point, distance, at, ids.len()) };
            OK
        })
    }

    pub fn drain_meeting(&mut self, envelope: &Envelope) -> Vec<u64> {
        self.drain(rstar_index_drain_meeting, envelope)
    }

    pub fn drain_inside(&mut self, envelope: &Envelope) -> Vec<u64> {
        self.drain(rstar_index_drain_inside, envelope)
    }

    pub fn drain_within(&mut self, point: &Point, distance: i64) -> Vec<u64> {
        self.all_ids(|ids, found| unsafe {
            rstar_index_drain_within(self.handle.get(), point, distance, ids.as_mut_ptr(), ids.len(), found)
        })
    }

    /// So many of them, without the first ones that were given. A longer list begins with a shorter one, where no ID
    /// stands twice.
    pub fn nearest(&self, point: &Point, most: usize, given: usize) -> Nearest {
        let (mut ids, mut distances) = (vec![0; most], vec![0; most]);
        let mut found = 0;
        require(unsafe {
            rstar_index_nearest(
                self.handle.get(),
                point,
                ids.as_mut_ptr(),
                most,
                distances.as_mut_ptr(),
                most,
                &mut found,
            )
        });
        ids.truncate(found);
        ids.into_iter().zip(distances).skip(given)
    }

    pub fn pairs(&self) -> Vec<(u64, u64)> {
        self.all_pairs(|first, second, found| unsafe {
            rstar_index_pairs(
                self.handle.get(),
                first.as_mut_ptr(),
                first.len(),
                second.as_mut_ptr(),
                second.len(),
                found,
            )
        })
    }

    /// The pairs with another index.
    pub fn pairs_between(&self, other: &Index) -> Vec<(u64, u64)> {
        assert!(!std::ptr::eq(self, other), "the library wants two handles");
        self.all_pairs(|first, second, found| unsafe {
            rstar_index_pairs_between(
                self.handle.get(),
                other.handle.get(),
                first.as_mut_ptr(),
                first.len(),
                second.as_mut_ptr(),
                second.len(),
                found,
            )
        })
    }

    pub fn pop_nearest(&mut self, point: &Point) -> Option<u64> {
        let (mut id, mut distance, mut found) = (0, 0, false);
        let mut envelope = Envelope::from_point([0, 0]);
        require(unsafe {
            rstar_index_pop_nearest(self.handle.get(), point, &mut id, &mut envelope, &mut distance, &mut found)
        });
        found.then_some(id)
    }
}

impl Drop for Index {
    fn drop(&mut self) {
        unsafe { rstar_index_clear(self.handle.get()) }
    }
}
