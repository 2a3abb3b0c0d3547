//! `bytemuck`, as far as wire.rs needs it.

use std::mem::{align_of, size_of};

/// # Safety
/// As in the crate: all zero bytes make a value.
pub unsafe trait Zeroable {}

/// # Safety
/// As in the crate: any bytes make a value.
pub unsafe trait Pod: Zeroable {}

/// Bytes of another length or alignment than the value's are refused, as in the crate.
pub fn try_from_bytes<T: Pod>(bytes: &[u8]) -> Result<&T, ()> {
    let is_aligned = bytes.as_ptr() as usize % align_of::<T>() == 0;
    if bytes.len() != size_of::<T>() || !is_aligned {
        return Err(());
    }
    // SAFETY: length and alignment are the value's, and any bytes make one.
    Ok(unsafe { &*bytes.as_ptr().cast() })
}
