//! The three functions by which the library takes memory and gives it back, over those of C: heap.c beside this
//! crate in Rust, so that a build needs no C compiler. Rust's own allocator can't stand behind them, since it
//! wants a block's size back.

use std::ffi::c_void;
use std::ptr::NonNull;

extern "C" {
    fn malloc(size: usize) -> *mut c_void;
    fn realloc(p: *mut c_void, size: usize) -> *mut c_void;
    fn free(p: *mut c_void);
}

/// A block, or that there was no memory for it: the pointer is never null.
#[repr(C)]
struct Tried {
    ok: bool,
    p: NonNull<c_void>,
}

fn tried(p: *mut c_void) -> Tried {
    Tried {
        ok: !p.is_null(),
        p: NonNull::new(p).unwrap_or(NonNull::dangling()),
    }
}

/// A block of size 0 is given as many bytes as its alignment, so that it has an address of its own.
fn size_or(size: usize, align: usize) -> usize {
    if size == 0 {
        align
    } else {
        size
    }
}

#[no_mangle]
extern "C" fn rattle_alloc(size: usize, align: usize) -> Tried {
    // SAFETY: any size may be asked for; the library asks for no alignment above 16, which `malloc` gives.
    tried(unsafe { malloc(size_or(size, align)) })
}

#[no_mangle]
unsafe extern "C" fn rattle_realloc(
    p: *mut c_void,
    _kept: usize,
    size: usize,
    align: usize,
) -> Tried {
    // SAFETY: the library passes a block that these functions gave it.
    tried(unsafe { realloc(p, size_or(size, align)) })
}

#[no_mangle]
unsafe extern "C" fn rattle_dealloc(p: *mut c_void) {
    // SAFETY: the library passes a block that these functions gave it, and uses it no more.
    unsafe { free(p) }
}
