//! Desk rules: the toggle that a bulk transfer hands out which fails or is cancelled.

use super::Vectors;
use crate::player::{ERRORS, INTR_BUFF_STATUS, INTR_TRANS_COMPLETE, TRANS_COMPLETE};
use crate::script::Way;
use std::io::{self, Write};

/// EP_BUFFER_CONTROL with no slot done with, slot 0 alone, and both: FULL, 8 bytes, where
/// they are received; FULL no more where they are sent.
struct Slots {
    way: Way,
    none: u32,
    one: u32,
    both: u32,
}

const SLOTS: [Slots; 2] = [
    Slots {
        way: Way::In,
        none: 0x0408_0408,
        one: 0x0408_8008,
        both: 0x8008_8008,
    },
    Slots {
        way: Way::Out,
        none: 0x8408_8408,
        one: 0x8408_0008,
        both: 0x0008_0008,
    },
];

const STALL: u32 = 1 << 29;

impl<W: Write> Vectors<W> {
    pub fn toggles(&mut self) -> io::Result<()> {
        for rule in [2, 1] {
            self.line(&format!("# desk rule {rule}"))?;
            self.line(&format!("rule {rule}"))?;
            for toggle in [0, 1] {
                for slots in &SLOTS {
                    self.failing(slots, toggle)?;
                }
                self.long_packets(toggle)?;
            }
            self.lines(&PLAIN)?;
        }
        Ok(())
    }

    /// A stall and a cancel after 0 to 3 packets; every error after one.
    fn failing(&mut self, slots: &Slots, toggle: u32) -> io::Result<()> {
        let Slots { one, both, .. } = *slots;
        for words in [&[][..], &[one], &[both], &[both, one]] {
            self.error(slots, toggle, words, STALL)?;
            self.moved(slots.way, toggle, words)?;
            self.line("cancel")?;
        }
        ERRORS
            .into_iter()
            .filter(|error| *error != STALL)
            .try_for_each(|error| self.error(slots, toggle, &[one], error))
    }

    /// An error whose own sample shows no slot done with, or both, which are not counted.
    fn error(
        &mut self,
        slots: &Slots,
        toggle: u32,
        words: &[u32],
        error: u32,
    ) -> io::Result<()> {
        for word in [slots.none, slots.both] {
            self.moved(slots.way, toggle, words)?;
            self.step(slots.way, error, INTR_BUFF_STATUS, word)?;
        }
        Ok(())
    }

    fn begin(&mut self, way: Way, toggle: u32) -> io::Result<()> {
        self.line(&match way {
            Way::In => format!("bulk-in 5 2 8 fixed {toggle} 64"),
            Way::Out => format!("bulk-out 5 2 8 fixed {toggle} seq:64:1:1"),
        })
    }

    fn moved(&mut self, way: Way, toggle: u32, words: &[u32]) -> io::Result<()> {
        self.begin(way, toggle)?;
        words
            .iter()
            .try_for_each(|word| self.step(way, 0, INTR_BUFF_STATUS, *word))
    }

    /// 9 in the first slot and in the second, in a stage that goes on and in one that is
    /// complete.
    fn long_packets(&mut self, toggle: u32) -> io::Result<()> {
        for (status, intr) in
            [(0, INTR_BUFF_STATUS), (TRANS_COMPLETE, INTR_TRANS_COMPLETE)]
        {
            for word in [0x8041, 0x8008_8041, 0x8041_8008] {
                self.begin(Way::In, toggle)?;
                self.step(Way::In, status, intr, word)?;
            }
        }
        Ok(())
    }
}

/// 15 and 16 are no end, and have no toggle; done is the same under both rules; controls
/// have none. Last the smallest list whose rules differ.
const PLAIN: [&str; 22] = [
    "bulk-in 5 2 8 fixed 0 8",
    "lend 4095 192",
    "step-in 0x20000000 0x400 0",
    "lend 4096 192",
    "step-out 0x20000000 0x400 0",
    "step-in 0x40000 8 0x8008",
    "cancel",
    "step-in 0x20000000 0x400 0",
    "control-none 0 0 8 0000000000000000",
    "step-in 0x20000000 0x400 0",
    "control-in 0 0 8 8006000100000800 8",
    "cancel",
    "control-in 0 0 8 8006000100000800 7",
    "step-in 0x40000 8 0",
    "fresh",
    "bulk-out 5 2 1 fixed 0 010203",
    "step-out 0 0x10 0x84000000",
    "step-out 0x20000000 0x400 0",
    "fresh",
    "bulk-out 5 2 1 fixed 0 010203",
    "step-out 0 0x10 0x84000000",
    "cancel",
];
