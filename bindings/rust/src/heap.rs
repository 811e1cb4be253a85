//! The library's allocator: three functions that the program defines, here with C's `malloc`, as in bindings/c/heap.c.
use std::ffi::c_void;
use std::ptr::NonNull;

unsafe extern "C" {
    fn malloc(size: usize) -> *mut c_void;
    fn realloc(block: *mut c_void, size: usize) -> *mut c_void;
    fn free(block: *mut c_void);
}

/// Whether the allocation succeeded, and the block. The pointer is never null.
#[repr(C)]
struct Tried {
    ok: bool,
    block: NonNull<c_void>,
}

impl From<*mut c_void> for Tried {
    fn from(block: *mut c_void) -> Tried {
        match NonNull::new(block) {
            Some(block) => Tried { ok: true, block },
            None => Tried { ok: false, block: NonNull::dangling() },
        }
    }
}

// SAFETY of the three: the library alone calls them, as an allocator. It asks for no alignment beyond that of `malloc`.

#[unsafe(no_mangle)]
extern "C" fn rattle_alloc(size: usize, align: usize) -> Tried {
    let size = if size == 0 { align } else { size };
    unsafe { malloc(size) }.into()
}

#[unsafe(no_mangle)]
unsafe extern "C" fn rattle_realloc(block: *mut c_void, _kept: usize, size: usize, align: usize) -> Tried {
    let size = if size == 0 { align } else { size };
    unsafe { realloc(block, size) }.into()
}

#[unsafe(no_mangle)]
unsafe extern "C" fn rattle_dealloc(block: *mut c_void) {
    unsafe { free(block) }
}
