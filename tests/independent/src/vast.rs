// Lent memory of any length, of which only the two ends are ever written, so that a run of 2^32
// entries and more takes no more than a few pages. Both ends are kept as they were before the call.

use crate::lent::Entry;
use crate::random::Random;
use std::ffi::c_void;
use std::ptr;
use std::slice;

extern "C" {
    fn mmap(
        address: *mut c_void,
        bytes: usize,
        protection: i32,
        flags: i32,
        file: i32,
        offset: i64,
    ) -> *mut c_void;
    fn munmap(address: *mut c_void, bytes: usize) -> i32;
}

const PROT_READ: i32 = 1;
const PROT_WRITE: i32 = 2;
const MAP_PRIVATE: i32 = 0x2;
const MAP_ANONYMOUS: i32 = 0x20;
const MAP_NORESERVE: i32 = 0x4000;
const PAGE: usize = 4096;

pub struct Vast<T> {
    /// A page, the run, and five pages more.
    cells: *mut T,
    mapped: usize,
    start: usize,
    entries: usize,
    /// From the page before the run to four pages after the entries due.
    near: Vec<T>,
    /// From the last page of the run to the end of what is mapped.
    far: Vec<T>,
}

impl<T: Entry> Vast<T> {
    /// A run of the entries due and a surplus, all 0.
    pub fn zero(due: usize, surplus: usize) -> Vast<T> {
        let page = PAGE / size_of::<T>();
        let entries = due + surplus;
        let near = due + 5 * page;
        let mapped = entries + 6 * page;
        let far = mapped - near.max(entries);
        let cells = unsafe {
            mmap(
                ptr::null_mut(),
                mapped * size_of::<T>(),
                PROT_READ | PROT_WRITE,
                MAP_PRIVATE | MAP_ANONYMOUS | MAP_NORESERVE,
                -1,
                0,
            )
        };
        assert!(cells as isize != -1, "{entries} entries are not mapped");
        Vast {
            cells: cells.cast(),
            mapped,
            start: page,
            entries,
            near: vec![T::cut(0); near],
            far: vec![T::cut(0); far],
        }
    }

    /// Both ends hold anything.
    pub fn dirty(random: &mut Random, due: usize, surplus: usize) -> Vast<T> {
        let mut vast = Vast::zero(due, surplus);
        vast.near.fill_with(|| T::cut(random.next()));
        vast.far.fill_with(|| T::cut(random.next()));
        let (near, far) = (vast.near.clone(), vast.far.clone());
        let far_start = vast.far_start();
        vast.cells_mut()[..near.len()].copy_from_slice(&near);
        vast.cells_mut()[far_start..].copy_from_slice(&far);
        vast
    }

    pub fn holding(random: &mut Random, contents: &[T], surplus: usize) -> Vast<T> {
        let mut vast = Vast::dirty(random, contents.len(), surplus);
        vast.put(0, contents);
        vast
    }

    /// What the run holds from entry `at` on, before the call.
    pub fn put(&mut self, at: usize, contents: &[T]) {
        self.now_mut()[at..at + contents.len()].copy_from_slice(contents);
        self.near = self.cells()[..self.near.len()].to_vec();
        self.far = self.cells()[self.far_start()..].to_vec();
    }

    fn far_start(&self) -> usize {
        self.mapped - self.far.len()
    }

    // All that is mapped is zeros or was written.
    fn cells(&self) -> &[T] {
        unsafe { slice::from_raw_parts(self.cells, self.mapped) }
    }

    fn cells_mut(&mut self) -> &mut [T] {
        unsafe { slice::from_raw_parts_mut(self.cells, self.mapped) }
    }

    pub fn now(&self) -> &[T] {
        &self.cells()[self.start..self.start + self.entries]
    }

    pub fn now_mut(&mut self) -> &mut [T] {
        let run = self.start..self.start + self.entries;
        &mut self.cells_mut()[run]
    }

    /// What a call left wrong that was to write these entries at the start of the run and nothing
    /// else: the first entry of both ends that is not as expected.
    pub fn fault(&self, name: &str, written: &[T]) -> Option<String> {
        let mut near = self.near.clone();
        near[self.start..self.start + written.len()].copy_from_slice(written);
        let far = (self.far_start()..).zip(&self.far);
        let differs = |(at, due): &(usize, &T)| self.cells()[*at] != **due;
        let (at, due) = (0..).zip(&near).chain(far).find(differs)?;
        let is = self.cells()[at];
        let at = at as i64 - self.start as i64;
        Some(format!("{name}[{at}] is {is:?}, should be {due:?}"))
    }
}

impl<T> Drop for Vast<T> {
    fn drop(&mut self) {
        unsafe { munmap(self.cells.cast(), self.mapped * size_of::<T>()) };
    }
}
