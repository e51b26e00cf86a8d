//! Counts the bytes that `malloc` lends, by defining it over the functions of glibc.
use std::ffi::c_void as Block;
use std::sync::atomic::{AtomicUsize, Ordering::Relaxed};

pub static HELD: AtomicUsize = AtomicUsize::new(0);
pub static PEAK: AtomicUsize = AtomicUsize::new(0);

unsafe extern "C" {
    fn __libc_malloc(size: usize) -> *mut Block;
    fn __libc_realloc(block: *mut Block, size: usize) -> *mut Block;
    fn __libc_free(block: *mut Block);
    fn malloc_usable_size(block: *mut Block) -> usize;
}

unsafe fn lent(block: *mut Block) -> *mut Block {
    let size = unsafe { malloc_usable_size(block) };
    PEAK.fetch_max(HELD.fetch_add(size, Relaxed) + size, Relaxed);
    block
}

#[unsafe(no_mangle)]
unsafe extern "C" fn malloc(size: usize) -> *mut Block {
    unsafe { lent(__libc_malloc(size)) }
}

/// The old and the new block both count in the peak, since a copy needs both.
#[unsafe(no_mangle)]
unsafe extern "C" fn realloc(block: *mut Block, size: usize) -> *mut Block {
    unsafe {
        let old = malloc_usable_size(block);
        let new = lent(__libc_realloc(block, size));
        HELD.fetch_sub(old, Relaxed);
        new
    }
}

#[unsafe(no_mangle)]
unsafe extern "C" fn free(block: *mut Block) {
    unsafe {
        HELD.fetch_sub(malloc_usable_size(block), Relaxed);
        __libc_free(block);
    }
}
