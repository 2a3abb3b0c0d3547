//! `cortex_m`: the delay, which is a write of its own kind.

pub mod asm {
    use crate::standins::memory::{log, Write};

    pub fn delay(cycles: u32) {
        log(Write {
            register: 0,
            mask: 0,
            value: cycles,
        });
    }
}
