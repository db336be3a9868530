// Memory with a page behind it that cannot be read, so that a call which reads one byte beyond the
// file that it is lent ends the whole run.

use std::alloc::{alloc_zeroed, dealloc, Layout};
use std::ffi::c_void;
use std::slice;

extern "C" {
    fn mprotect(address: *mut c_void, bytes: usize, protection: i32) -> i32;
}

const PROT_NONE: i32 = 0;
const PROT_READ: i32 = 1;
const PROT_WRITE: i32 = 2;
const PAGE: usize = 4096;

pub struct Fence {
    cells: *mut u8,
    layout: Layout,
}

impl Fence {
    /// Room for files of so many bytes at most.
    pub fn new(most: usize) -> Fence {
        let room = most.next_multiple_of(PAGE) + PAGE;
        let layout = Layout::from_size_align(room, PAGE).expect("whole pages");
        let cells = unsafe { alloc_zeroed(layout) };
        assert!(!cells.is_null(), "{room} bytes are not there");
        let fence = Fence { cells, layout };
        assert_eq!(fence.protect(PROT_NONE), 0, "the last page stays readable");
        fence
    }

    fn room(&self) -> usize {
        self.layout.size() - PAGE
    }

    fn protect(&self, protection: i32) -> i32 {
        unsafe { mprotect(self.cells.add(self.room()).cast(), PAGE, protection) }
    }

    /// The file in memory that ends with it.
    pub fn holding(&mut self, file: &[u8]) -> &[u8] {
        let room = self.room();
        let cells = unsafe { slice::from_raw_parts_mut(self.cells, room) };
        let end = &mut cells[room - file.len()..];
        end.copy_from_slice(file);
        end
    }
}

impl Drop for Fence {
    fn drop(&mut self) {
        assert_eq!(self.protect(PROT_READ | PROT_WRITE), 0);
        unsafe { dealloc(self.cells, self.layout) };
    }
}
