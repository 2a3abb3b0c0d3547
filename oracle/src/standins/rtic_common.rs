//! `rtic_common::waker_registration`: remembers that it was woken, instead of waking.

pub mod waker_registration {
    use std::cell::Cell;
    use std::task::Waker;

    pub struct CriticalSectionWakerRegistration {
        woken: Cell<bool>,
    }

    impl CriticalSectionWakerRegistration {
        pub const fn new() -> Self {
            Self {
                woken: Cell::new(false),
            }
        }

        pub fn register(&self, _waker: &Waker) {}

        pub fn wake(&self) {
            self.woken.set(true);
        }

        /// Whether `wake` was called since this was last asked.
        pub fn take_woken(&self) -> bool {
            self.woken.take()
        }
    }
}
