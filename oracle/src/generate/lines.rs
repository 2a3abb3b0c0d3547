//! Lines that all kinds of script have in common.

use super::Generator;
use crate::player::{UnderWay, ERRORS, TRANS_COMPLETE};
use crate::print::hex;
use crate::rng::Rng;
use crate::script::{Format, Step, Way};
use std::io::{self, Write};

impl<W: Write> Generator<W> {
    pub fn size(&mut self) -> u64 {
        match self.rng.below(3) {
            0 => self.rng.pick(&[1, 2, 8, 63, 64]),
            1 => self.rng.pick(&[8, 16, 32, 64]),
            _ => 1 + self.rng.below(64),
        }
    }

    /// A length around the boundaries of packets of this size.
    pub fn length(&mut self, size: u64) -> u64 {
        let multiple = size * self.rng.pick(&[0, 1, 1, 2, 2, 3, 4, 5, 9]);
        match self.rng.below(8) {
            0 => self.rng.below(6 * size),
            1 | 2 => multiple.saturating_sub(1),
            3 | 4 => multiple + 1,
            _ => multiple,
        }
    }

    pub fn bytes(&mut self, length: u64) -> String {
        bytes(&mut self.rng, length)
    }

    /// A SETUP with this wLength.
    pub fn setup(&mut self, length: u64) -> String {
        let mut bytes = self.rng.word().to_le_bytes();
        bytes[6..].copy_from_slice(&(length as u16).to_le_bytes());
        hex(&bytes)
    }

    /// With nothing under way, what leads to the next transfer.
    pub fn next_transfer(&mut self) -> io::Result<()> {
        match self.player.format {
            Format::Replay => self.sound_begin(),
            Format::Callers => self.dispatch(),
        }
    }

    /// A begin with every field in range.
    pub fn sound_begin(&mut self) -> io::Result<()> {
        let address = self.rng.below(128);
        let endpoint = 1 + self.rng.below(15);
        let size = self.size();
        let length = match self.rng.below(500) {
            0 => 65_535,
            1 => 65_535 - self.rng.below(130),
            _ => self.length(size),
        };
        let bit = self.rng.below(2);
        let kind = self.rng.pick(&["fixed", "variable"]);
        let setup = self.setup(length);
        // Now and then more than wLength, and less: 7.
        let lent = match self.rng.below(12) {
            0 => length.saturating_sub(1),
            1 | 2 => length + self.rng.pick(&[1, 7, size]),
            _ => length,
        };
        let text = match self.rng.below(7) {
            0 | 1 => format!("control-in {address} {bit} {size} {setup} {lent}"),
            2 => {
                let bytes = self.bytes(lent);
                format!("control-out {address} {bit} {size} {setup} {bytes}")
            }
            3 => format!("control-none {address} {bit} {size} {setup}"),
            4 => format!("bulk-in {address} {endpoint} {size} {kind} {bit} {length}"),
            _ => {
                let bytes = self.bytes(length);
                format!("bulk-out {address} {endpoint} {size} {kind} {bit} {bytes}")
            }
        };
        self.begin(&text)
    }

    /// A begin's line; of a callers' script the transfer comes.
    pub fn begin(&mut self, text: &str) -> io::Result<()> {
        match self.player.format {
            Format::Replay => self.line(text),
            Format::Callers => self.come(text),
        }
    }

    pub fn step(
        &mut self,
        way: Way,
        status: u32,
        intr: u32,
        buffers: u32,
    ) -> io::Result<()> {
        self.line(&Step::new(way, status, intr, buffers).to_string())
    }

    /// A step with everything at random, around what could matter.
    pub fn wild_step(&mut self, under_way: UnderWay) -> io::Result<()> {
        let sie_status = match self.rng.below(16) {
            0..10 => 0,
            10..13 => TRANS_COMPLETE,
            13 => self.errors(),
            14 => TRANS_COMPLETE | self.errors(),
            _ => self.rng.bits() & !self.rng.pick(&[0, 0xaf00_0000, 0xaf04_0000]),
        };
        let intr = match self.rng.below(8) {
            0 => 0,
            1 => 1 << self.rng.below(11),
            2 => self.rng.bits() & 0x807,
            3 => self.rng.bits(),
            _ => self.rng.pick(&[
                0x8, 0x10, 0x18, 0x20, 0x40, 0x80, 0x100, 0x200, 0x400, 0x7f8,
            ]),
        };
        let buffer_control = self.slot(under_way.size) | self.slot(under_way.size) << 16;
        self.step(under_way.way, sie_status, intr, buffer_control)
    }

    /// Half of an EP_BUFFER_CONTROL.
    fn slot(&mut self, size: u64) -> u32 {
        let flags = self.rng.bits() & 0xfc00;
        // A length above 64 ends an IN transfer: seldom.
        let length = match self.rng.below(100) {
            0..2 => self.rng.pick(&[65, 66, 128, 512, 1023]),
            2..4 => 64,
            4..7 => 63,
            7..10 => 1,
            10..18 => 0,
            18..21 => size as u32 - 1,
            21..24 => size as u32 + 1,
            24..40 => self.rng.below(65) as u32,
            _ => size as u32,
        };
        flags | length
    }

    fn errors(&mut self) -> u32 {
        match self.rng.below(3) {
            0 => self.rng.bits() & 0xff00_0000,
            _ => self.rng.pick(&ERRORS),
        }
    }

    pub fn packet_memory(&mut self, offset: u64, length: u64) -> io::Result<()> {
        let bytes = self.bytes(length);
        self.line(&format!("pm {offset:#x} {bytes}"))
    }

    pub fn sound_open(&mut self) -> io::Result<()> {
        let address = self.rng.below(128);
        let endpoint = 1 + self.rng.below(15);
        let preamble = self.rng.below(2);
        let size = self.size();
        let interval = match self.rng.below(3) {
            0 => self.rng.pick(&[0, 1, 8, 9, 10, 11, 255]),
            _ => self.rng.below(256),
        };
        self.line(&format!(
            "open {address} {preamble} {endpoint} {size} {interval}"
        ))
    }

    /// An open pipe, if there is one.
    pub fn open_pipe(&mut self) -> Option<u64> {
        let open: Vec<u64> = (1..=15)
            .filter(|n| self.player.open[*n as usize - 1])
            .collect();
        (!open.is_empty()).then(|| self.rng.pick(&open))
    }

    /// A poll of this pipe, often after a packet came in.
    pub fn poll(&mut self, pipe: u64) -> io::Result<()> {
        if (1..=15).contains(&pipe) && self.rng.once_in(3) {
            let length = self.rng.pick(&[1, 8, 64, 65]);
            self.packet_memory(0x200 + 128 * pipe, length)?;
        }
        let length = match self.rng.below(4) {
            0 => self.rng.pick(&[0, 1, 63, 64, 65, 128, 1023]),
            _ => self.rng.below(65) as u32,
        };
        let buffer_control =
            self.rng.bits() & self.rng.pick(&[0xfc00, 0xffff_fc00]) | length;
        let host_addr_endp = match self.rng.below(4) {
            0 => self.rng.bits(),
            _ => self.rng.bits() & 0x000f_007f,
        };
        self.line(&format!(
            "poll {pipe} {buffer_control:#x} {host_addr_endp:#x}"
        ))
    }

    pub fn irq(&mut self) -> io::Result<()> {
        let ints = match self.rng.below(4) {
            0 => self
                .rng
                .pick(&[0, 1, 8, 0x10, 0x11, 0x20, 0x40, 0x200, 0x400, 0x7f8, 0x7ff]),
            1 => self.rng.bits(),
            _ => self.rng.bits() & self.rng.bits() & 0x7ff,
        };
        let buff_status = match self.rng.below(4) {
            0 => self.rng.bits(),
            1 => 1 << self.rng.below(32),
            2 => 0,
            _ => self.rng.bits() & self.rng.bits() & self.rng.bits(),
        };
        self.line(&format!("irq {ints:#x} {buff_status:#x}"))
    }

    pub fn detect(&mut self) -> io::Result<()> {
        let mask = self.rng.pick(&[0x300, 0xffff_ffff]);
        let sie_status = self.rng.bits() & mask;
        self.line(&format!("detect {sie_status:#x}"))
    }

    /// A call that has nothing to do with a transfer.
    pub fn side_call(&mut self) -> io::Result<()> {
        match (self.rng.below(10), self.open_pipe()) {
            (0, _) => self.sound_open(),
            (1, Some(pipe)) if self.rng.once_in(2) => self.line(&format!("close {pipe}")),
            (2..=5, Some(pipe)) => self.poll(pipe),
            (6, _) => self.detect(),
            _ => self.irq(),
        }
    }
}

pub fn bytes(rng: &mut Rng, length: u64) -> String {
    if length <= 64 && rng.bit() {
        let bytes: Vec<u8> = (0..length).map(|_| rng.bits() as u8).collect();
        return hex(&bytes);
    }
    let (start, step) = (rng.below(256), rng.below(256));
    format!("seq:{length}:{start}:{step}")
}
