//! Hostile scripts: sound begins, but samples, packet memory and lent bytes at random.

use super::Generator;
use crate::player::UnderWay;
use crate::script::Way;
use std::io::{self, Write};

impl<W: Write> Generator<W> {
    pub fn hostile(&mut self) -> io::Result<()> {
        match (self.player.under_way, self.rng.below(100)) {
            (_, 0..12) => self.side_call(),
            (_, 12..20) => self.any_packet_memory(),
            (_, 20) => self.sound_begin(),
            (_, 21) => self.line("cancel"),
            (Some(under_way), 22..30) => self.own_buffer(under_way),
            (Some(under_way), 30) => self.wild_step(UnderWay {
                way: match under_way.way {
                    Way::In => Way::Out,
                    Way::Out => Way::In,
                },
                ..under_way
            }),
            (Some(under_way), _) => self.wild_step(under_way),
            (None, _) => self.next_transfer(),
        }
    }

    pub fn any_packet_memory(&mut self) -> io::Result<()> {
        let (offset, length) = match self.rng.below(4) {
            0 => (0x180, 128),
            1 => (0x1c0, 64),
            2 => (self.rng.below(4096), self.rng.below(70)),
            _ => (0x180, 64),
        };
        self.packet_memory(offset, length.min(4096 - offset))
    }

    /// Other bytes for the next step, seldom of another length.
    pub fn own_buffer(&mut self, under_way: UnderWay) -> io::Result<()> {
        let length = under_way.length as u64;
        let length = match self.rng.below(8) {
            0 => (length + 1).min(131_072),
            1 => length.saturating_sub(1),
            _ => length,
        };
        let bytes = self.bytes(length);
        self.line(&format!("buffer {bytes}"))
    }
}
