//! The buffer that a transfer's future holds for as long as it lives, and that is lent
//! afresh to each step.

use std::ptr::{self, NonNull};

/// A raw allocation: the bytes are seen and changed here between two polls of a future
/// that holds a reference to them.
pub struct LentBuffer {
    bytes: NonNull<[u8]>,
}

impl LentBuffer {
    pub fn new(bytes: Vec<u8>) -> Self {
        let bytes = NonNull::from(Box::leak(bytes.into_boxed_slice()));
        Self { bytes }
    }

    pub fn len(&self) -> usize {
        self.bytes.len()
    }

    /// # Safety
    /// To be called once, for a future that is dropped before this buffer and that is
    /// not being polled while `bytes` or `fill` runs.
    pub unsafe fn lend(&self) -> &'static mut [u8] {
        &mut *self.bytes.as_ptr()
    }

    pub fn bytes(&self) -> Vec<u8> {
        let mut copy = vec![0; self.len()];
        // Sound: the allocation has this length and lives as long as `self`.
        unsafe { ptr::copy_nonoverlapping(self.start(), copy.as_mut_ptr(), copy.len()) };
        copy
    }

    pub fn fill(&self, bytes: &[u8]) {
        assert_eq!(bytes.len(), self.len());
        // Sound: as above.
        unsafe { ptr::copy_nonoverlapping(bytes.as_ptr(), self.start(), bytes.len()) };
    }

    fn start(&self) -> *mut u8 {
        self.bytes.as_ptr().cast()
    }
}

impl Drop for LentBuffer {
    fn drop(&mut self) {
        // Sound: it came from a box, and the future that held it is gone.
        drop(unsafe { Box::from_raw(self.bytes.as_ptr()) });
    }
}
