//! A sound device at the other end, as far as EP_BUFFER_CONTROL of EPX shows it.

use crate::record::EP_BUFFER_CONTROL_0;
use crate::standins::memory::Write;

const AVAILABLE: u32 = 1 << 10;
const LAST: u32 = 1 << 14;
const FULL: u32 = 1 << 15;
const LENGTH: u32 = 0x3ff;

#[derive(Default)]
pub struct Bus {
    /// EP_BUFFER_CONTROL as the logs and the device leave it.
    pub buffer_control: u32,
    /// The slot whose turn it is.
    pub slot: usize,
}

/// A slot that is the device's turn.
#[derive(Clone, Copy)]
pub struct Armed {
    pub is_in: bool,
    pub is_last: bool,
    pub length: u32,
}

impl Bus {
    pub fn see(&mut self, log: &[Write]) {
        for write in log.iter().filter(|w| w.register == EP_BUFFER_CONTROL_0) {
            self.buffer_control = self.buffer_control & !write.mask | write.value;
            if write.mask == u32::MAX {
                self.slot = 0;
            }
        }
    }

    pub fn armed(&self) -> Option<Armed> {
        let half = self.buffer_control >> (16 * self.slot);
        (half & AVAILABLE != 0).then_some(Armed {
            is_in: half & FULL == 0,
            is_last: half & LAST != 0,
            length: half & LENGTH,
        })
    }

    /// The device sends this many bytes into the slot.
    pub fn fill(&mut self, length: u32) {
        self.turn(|half| half & !(LENGTH | AVAILABLE) | FULL | length);
    }

    /// The device takes the packet.
    pub fn take(&mut self) {
        self.turn(|half| half & !(FULL | AVAILABLE));
    }

    fn turn(&mut self, change: impl Fn(u32) -> u32) {
        let at = 16 * self.slot;
        let half = self.buffer_control >> at & 0xffff;
        self.buffer_control &= !(0xffff << at);
        self.buffer_control |= change(half) << at;
        self.slot = 1 - self.slot;
    }
}
