//! Well-behaved scripts: every argument in range, every sample as a sound device and
//! chip would show it.

use super::lines::bytes;
use super::Generator;
use crate::player::{UnderWay, ERRORS, INTR_BUFF_STATUS};
use std::io::{self, Write};

impl<W: Write> Generator<W> {
    pub fn well(&mut self) -> io::Result<()> {
        match (self.player.under_way, self.rng.below(100)) {
            (_, 0..15) => self.side_call(),
            (Some(_), 15) => self.line("cancel"),
            (Some(under_way), _) => self.sound_step(under_way),
            (None, _) => self.next_transfer(),
        }
    }

    fn sound_step(&mut self, under_way: UnderWay) -> io::Result<()> {
        let (sie_status, intr) = match self.rng.below(100) {
            // No interrupt yet.
            0..8 => (0, self.rng.pick(&[0, 1])),
            8..11 => {
                let interrupt = self.rng.pick(&[0x40, 0x400, INTR_BUFF_STATUS]);
                (self.rng.pick(&ERRORS), interrupt)
            }
            _ => self.device_acts(30)?,
        };
        let buffer_control = self.player.bus.buffer_control;
        self.step(under_way.way, sie_status, intr, buffer_control)
    }

    /// Lets the device act, and gives SIE_STATUS and INTR after it. Once in `short` IN
    /// packets it sends one of any length.
    pub fn device_acts(&mut self, short: u64) -> io::Result<(u32, u32)> {
        let packets = self.rng.pick(&[0, 1, 1, 1, 2, 2, 2, 2]);
        let rng = &mut self.rng;
        self.player.device_acts(packets, |armed| {
            let length = match rng.once_in(short) {
                true => rng.below(u64::from(armed) + 1),
                false => armed.into(),
            };
            (length as u32, bytes(rng, length))
        })
    }
}
