//! Counts every block that the C library gives to either side, by the size that the library set aside for it.
use std::sync::atomic::{AtomicUsize, Ordering::Relaxed};

static HELD: AtomicUsize = AtomicUsize::new(0);
static MOST: AtomicUsize = AtomicUsize::new(0);
static BLOCKS: AtomicUsize = AtomicUsize::new(0);

unsafe extern "C" {
    fn __libc_malloc(size: usize) -> *mut u8;
    fn __libc_calloc(count: usize, size: usize) -> *mut u8;
    fn __libc_realloc(block: *mut u8, size: usize) -> *mut u8;
    fn __libc_free(block: *mut u8);
    fn malloc_usable_size(block: *mut u8) -> usize;
}

/// Counts a block that was given in the place of one of that size.
fn count(block: *mut u8, old: usize) -> *mut u8 {
    // SAFETY: the C library has just given the block, or a null, which has no size.
    let size = unsafe { malloc_usable_size(block) };
    let held = HELD.load(Relaxed).wrapping_sub(old).wrapping_add(size);
    HELD.store(held, Relaxed);
    MOST.fetch_max(held, Relaxed);
    BLOCKS.fetch_add(1, Relaxed);
    block
}

// SAFETY, of all four: they are those of the C library, whose callers keep to its rules.
#[unsafe(no_mangle)]
unsafe extern "C" fn malloc(size: usize) -> *mut u8 {
    count(unsafe { __libc_malloc(size) }, 0)
}

#[unsafe(no_mangle)]
unsafe extern "C" fn calloc(items: usize, size: usize) -> *mut u8 {
    count(unsafe { __libc_calloc(items, size) }, 0)
}

#[unsafe(no_mangle)]
unsafe extern "C" fn realloc(block: *mut u8, size: usize) -> *mut u8 {
    let old = unsafe { malloc_usable_size(block) };
    count(unsafe { __libc_realloc(block, size) }, old)
}

#[unsafe(no_mangle)]
unsafe extern "C" fn free(block: *mut u8) {
    let held = HELD.load(Relaxed);
    HELD.store(
        held.wrapping_sub(unsafe { malloc_usable_size(block) }),
        Relaxed,
    );
    unsafe { __libc_free(block) }
}

/// The most bytes that are held at once while this runs, beside those before it, and how many blocks it asks for.
pub fn most(run: impl FnOnce()) -> (usize, usize) {
    let (held, blocks) = (HELD.load(Relaxed), BLOCKS.load(Relaxed));
    MOST.store(held, Relaxed);
    run();
    assert_eq!(HELD.load(Relaxed), held, "memory is kept");
    (MOST.load(Relaxed) - held, BLOCKS.load(Relaxed) - blocks)
}
