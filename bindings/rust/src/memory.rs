//! The memory of the library: the three functions that it asks for, over the C library's.
use core::ffi::c_void;

#[repr(C)]
pub struct Tried {
    ok: bool,
    block: *mut c_void,
}

extern "C" {
    fn malloc(size: usize) -> *mut c_void;
    fn realloc(block: *mut c_void, size: usize) -> *mut c_void;
    fn free(block: *mut c_void);
}

/// Where nothing was got the pointer is still one, and is never followed.
fn tried(block: *mut c_void) -> Tried {
    let ok = !block.is_null();
    Tried { ok, block: if ok { block } else { core::ptr::NonNull::dangling().as_ptr() } }
}

#[no_mangle]
extern "C" fn rattle_alloc(size: usize, align: usize) -> Tried {
    tried(unsafe { malloc(if size == 0 { align } else { size }) })
}

#[no_mangle]
unsafe extern "C" fn rattle_realloc(block: *mut c_void, _kept: usize, size: usize, align: usize) -> Tried {
    tried(realloc(block, if size == 0 { align } else { size }))
}

#[no_mangle]
unsafe extern "C" fn rattle_dealloc(block: *mut c_void) {
    free(block);
}
