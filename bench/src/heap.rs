//! Counts what each solver takes from the heap. The Rattle solver asks for memory by three functions, which the program has to define.

use std::alloc::{GlobalAlloc, Layout, System};
use std::ffi::c_void;
use std::sync::atomic::{AtomicU64, Ordering::Relaxed};

static RUST: AtomicU64 = AtomicU64::new(0);
static RATTLE: AtomicU64 = AtomicU64::new(0);

/// How often the Rust code, and how often the Rattle code, took memory so far.
pub fn taken() -> (u64, u64) {
    (RUST.load(Relaxed), RATTLE.load(Relaxed))
}

struct Counting;

#[global_allocator]
static HEAP: Counting = Counting;

// SAFETY: each call is the system allocator's, which meets the contract.
unsafe impl GlobalAlloc for Counting {
    unsafe fn alloc(&self, layout: Layout) -> *mut u8 {
        RUST.fetch_add(1, Relaxed);
        unsafe { System.alloc(layout) }
    }

    unsafe fn dealloc(&self, at: *mut u8, layout: Layout) {
        unsafe { System.dealloc(at, layout) }
    }

    unsafe fn realloc(&self, at: *mut u8, layout: Layout, size: usize) -> *mut u8 {
        RUST.fetch_add(1, Relaxed);
        unsafe { System.realloc(at, layout, size) }
    }
}

unsafe extern "C" {
    fn malloc(size: usize) -> *mut c_void;
    fn realloc(at: *mut c_void, size: usize) -> *mut c_void;
    fn free(at: *mut c_void);
}

/// What the kit's functions answer: whether there was memory, and where; never null.
#[repr(C)]
pub struct Tried {
    there: usize,
    at: *mut c_void,
}

fn tried(at: *mut c_void) -> Tried {
    RATTLE.fetch_add(1, Relaxed);
    if at.is_null() {
        let at = std::ptr::dangling_mut::<u128>().cast();
        return Tried { there: 0, at };
    }
    Tried { there: 1, at }
}

// The names and the answers are those of the kit's heap.c. Alignments are at most 16, as malloc's are.
#[unsafe(no_mangle)]
unsafe extern "C" fn rattle_alloc(size: usize, align: usize) -> Tried {
    tried(unsafe { malloc(if size == 0 { align } else { size }) })
}

#[unsafe(no_mangle)]
unsafe extern "C" fn rattle_realloc(
    at: *mut c_void,
    _kept: usize,
    size: usize,
    align: usize,
) -> Tried {
    tried(unsafe { realloc(at, if size == 0 { align } else { size }) })
}

#[unsafe(no_mangle)]
unsafe extern "C" fn rattle_dealloc(at: *mut c_void) {
    unsafe { free(at) }
}
