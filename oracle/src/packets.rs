//! Desk rule 2's toggle, which the Rust hasn't got (document 02, R-6): the one handed in,
//! flipped once per packet retired, counted from the samples and the logs.

use crate::driver::Answer;
use crate::script::{Request, Step, Way};
use crate::standins::memory::Write;

const EP_BUFFER_CONTROL: u32 = 0x5010_0080;
/// AVAILABLE of either slot.
const AVAILABLE: u32 = 1 << 10 | 1 << 26;
const FULL: u32 = 1 << 15;
const LENGTH: u32 = 0x3ff;

pub struct Packets {
    way: Way,
    toggle: bool,
    armed: u32,
    retired: u32,
}

impl Packets {
    /// Of a bulk begin; a control has no toggle.
    pub fn of(request: &Request, log: &[Write]) -> Option<Self> {
        let Request::Bulk { toggle, way, .. } = *request else {
            return None;
        };
        Some(Self {
            way,
            toggle,
            armed: armings(log),
            retired: 0,
        })
    }

    /// A poll that was ready and found neither TRANS_COMPLETE nor an error retires up to
    /// two slots and then arms; 9 stops at the long packet, any other error retires none.
    pub fn step(&mut self, step: &Step, answer: &Answer, log: &[Write]) {
        if matches!(
            answer,
            Answer::Waiting { again: true } | Answer::Failed { number: 9, .. }
        ) {
            for _ in 0..2 {
                self.retire(step.buffer_control);
            }
        }
        self.armed += armings(log);
    }

    /// The next slot in flight, if it is done with.
    fn retire(&mut self, buffer_control: u32) {
        let half = buffer_control >> (16 * (self.retired % 2));
        let done = match self.way {
            Way::In => half & FULL != 0 && half & LENGTH <= 64,
            Way::Out => half & FULL == 0,
        };
        self.retired += u32::from(self.retired < self.armed && done);
    }

    pub fn toggle(&self) -> bool {
        self.toggle ^ (self.retired % 2 == 1)
    }
}

/// How many writes set a slot's AVAILABLE.
fn armings(log: &[Write]) -> u32 {
    let arms = |write: &&Write| {
        write.register == EP_BUFFER_CONTROL && write.mask & write.value & AVAILABLE != 0
    };
    log.iter().filter(arms).count() as u32
}
