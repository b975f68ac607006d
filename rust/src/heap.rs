//! What the archive asks of a heap, over the program's global allocator.
//!
//! The archive gives a block back by its pointer alone, so the size of each stands before it.

extern crate alloc;

use alloc::alloc::{Layout, alloc, dealloc, realloc};
use core::ffi::c_void;
use core::ptr::NonNull;

/// Room before a block for its size. Each alignment that is asked for divides it.
const HEAD: usize = 16;

/// A block, where `ok`; else a pointer that nobody reads.
#[repr(C)]
struct Block {
    ok: bool,
    block: *mut c_void,
}

const NONE: Block = Block {
    ok: false,
    block: NonNull::<u128>::dangling().as_ptr().cast(),
};

fn layout(size: usize) -> Option<Layout> {
    Layout::from_size_align(size.checked_add(HEAD)?, HEAD).ok()
}

/// A block that begins with its size, at this head; none where the head is null.
///
/// # Safety
///
/// A head that isn't null has room for `HEAD` bytes and `size` more.
unsafe fn block(head: *mut u8, size: usize) -> Block {
    if head.is_null() {
        return NONE;
    }
    // SAFETY: what is written lies within the head.
    unsafe {
        head.cast::<usize>().write(size);
        Block {
            ok: true,
            block: head.add(HEAD).cast(),
        }
    }
}

/// A block of so many bytes.
#[unsafe(no_mangle)]
extern "C" fn rattle_alloc(size: usize, _align: usize) -> Block {
    let Some(layout) = layout(size) else {
        return NONE;
    };
    // SAFETY: the layout has `HEAD` bytes and `size` more.
    unsafe { block(alloc(layout), size) }
}

/// Makes a block one of so many bytes; it may move.
///
/// # Safety
///
/// `old` is one of these functions, and where another one is given nobody reads it any more.
#[unsafe(no_mangle)]
unsafe extern "C" fn rattle_realloc(
    old: *mut c_void,
    _kept: usize,
    size: usize,
    _align: usize,
) -> Block {
    let Some(wanted) = layout(size) else {
        return NONE;
    };
    // SAFETY: the size stands before the block, its layout was valid when it was made, and so is the one that is wanted.
    unsafe {
        let head = old.cast::<u8>().sub(HEAD);
        let given = Layout::from_size_align_unchecked(head.cast::<usize>().read() + HEAD, HEAD);
        block(realloc(head, given, wanted.size()), size)
    }
}

/// Takes a block back.
///
/// # Safety
///
/// `block` is one of these functions, and nobody reads it any more.
#[unsafe(no_mangle)]
unsafe extern "C" fn rattle_dealloc(block: *mut c_void) {
    // SAFETY: the size stands before the block, and its layout was valid when it was made.
    unsafe {
        let head = block.cast::<u8>().sub(HEAD);
        let size = head.cast::<usize>().read();
        dealloc(head, Layout::from_size_align_unchecked(size + HEAD, HEAD));
    }
}
