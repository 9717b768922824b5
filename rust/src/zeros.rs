//! Memory that may be wanting.
use std::alloc::{alloc_zeroed, Layout};

/// So many zero bytes; none where memory cannot be had for them. Linux gives a page of them when it is first written
/// to.
pub(crate) fn zeros(length: usize) -> Option<Vec<u8>> {
    if length == 0 {
        return Some(Vec::new());
    }
    let layout = Layout::array::<u8>(length).ok()?;
    // SAFETY: the layout is that of `length` bytes, at least one; a vector of bytes frees its memory by the same
    // layout.
    unsafe {
        let start = alloc_zeroed(layout);
        (!start.is_null()).then(|| Vec::from_raw_parts(start, length, length))
    }
}
