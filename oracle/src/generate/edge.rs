//! Scripts of refused calls and limits.

use super::Generator;
use crate::caller_lines::{coming, shares};
use crate::player::{UnderWay, ERRORS};
use crate::script::{Format, Way};
use std::io::{self, Write};

impl<W: Write> Generator<W> {
    pub fn edge(&mut self) -> io::Result<()> {
        let under_way = self.player.under_way.unwrap_or(UnderWay {
            way: self.rng.pick(&[Way::In, Way::Out]),
            size: 8,
            length: 0,
        });
        match self.rng.below(600) {
            0 if self.rng.once_in(10) => self.long_transfers(),
            1 if self.rng.once_in(20) => self.brimful(),
            0..10 => self.full_pool(),
            10..40 => self.short_loan(),
            40..60 => self.line("cancel"),
            60..110 => self.any_open(),
            110..150 => {
                let pipe = self.any_pipe();
                self.line(&format!("close {pipe}"))
            }
            150..220 => {
                let pipe = self.any_pipe();
                self.poll(pipe)
            }
            220..240 => self.irq(),
            240..260 => self.detect(),
            260..280 => self.any_packet_memory(),
            280..320 => self.own_buffer(under_way),
            320..460 if self.is_begin_wanted() => self.any_begin(),
            _ => self.wild_step(under_way),
        }
    }

    /// A good value, or one at or past a limit.
    fn address(&mut self) -> u64 {
        match self.rng.below(3) {
            0 => self.rng.pick(&[0, 1, 126, 127, 128, 129, 255]),
            _ => self.rng.below(128),
        }
    }

    fn endpoint(&mut self) -> u64 {
        match self.rng.below(3) {
            0 => self.rng.pick(&[0, 1, 14, 15, 16, 17, 128, 255]),
            _ => 1 + self.rng.below(15),
        }
    }

    fn any_size(&mut self) -> u64 {
        match self.rng.below(3) {
            0 => self
                .rng
                .pick(&[0, 1, 63, 64, 65, 128, 255, 256, 257, 320, 65_535]),
            _ => self.size(),
        }
    }

    fn any_length(&mut self, size: u64) -> u64 {
        match self.rng.below(4) {
            0 => self
                .rng
                .pick(&[65_534, 65_535, 65_536, 65_537, 65_600, 131_071, 131_072]),
            _ => self.length(size.clamp(1, 64)),
        }
    }

    fn any_pipe(&mut self) -> u64 {
        match self.rng.below(3) {
            0 => self.rng.pick(&[0, 1, 14, 15, 16, 17, 31, 32, 33, 255]),
            _ => 1 + self.rng.below(15),
        }
    }

    pub fn any_begin(&mut self) -> io::Result<()> {
        let (address, endpoint, size) =
            (self.address(), self.endpoint(), self.any_size());
        let length = self.any_length(size);
        let bit = self.rng.below(2);
        let kind = self.rng.pick(&["fixed", "variable"]);
        // wLength may be anything; a control's buffer too.
        let asked = self.any_length(size).min(65_535);
        let (setup, small) = (self.setup(asked), size.min(255));
        let text = match self.rng.below(5) {
            0 => format!("control-in {address} {bit} {small} {setup} {length}"),
            1 => {
                let bytes = self.bytes(length);
                format!("control-out {address} {bit} {small} {setup} {bytes}")
            }
            2 => format!("control-none {address} {bit} {small} {setup}"),
            3 => format!("bulk-in {address} {endpoint} {size} {kind} {bit} {length}"),
            _ => {
                let bytes = self.bytes(length);
                format!("bulk-out {address} {endpoint} {size} {kind} {bit} {bytes}")
            }
        };
        self.begin(&text)
    }

    /// A begin with fields of all sorts; of a callers' script mostly a start.
    fn any_begin_or_start(&mut self) -> io::Result<()> {
        match self.player.format {
            Format::Replay => self.any_begin(),
            Format::Callers if self.rng.bit() => self.any_start(),
            Format::Callers => self.dispatch(),
        }
    }

    /// The transfer is begun, with nothing under way; of a callers' script, with nobody
    /// waiting.
    fn begin_alone(&mut self, text: &str) -> io::Result<()> {
        match self.player.format {
            Format::Replay => self.line(text),
            Format::Callers => {
                let caller = self.rng.below(8);
                self.line(&coming(caller, text))?;
                self.sound_start()
            }
        }
    }

    pub fn any_open(&mut self) -> io::Result<()> {
        let (address, endpoint, size) =
            (self.address(), self.endpoint(), self.any_size());
        let preamble = self.rng.below(2);
        let interval = self.rng.pick(&[0, 1, 8, 9, 10, 11, 254, 255]);
        self.line(&format!(
            "open {address} {preamble} {endpoint} {size} {interval}"
        ))
    }

    /// Opens until the pool is full and beyond, then closes some.
    fn full_pool(&mut self) -> io::Result<()> {
        for _ in 0..17 {
            self.sound_open()?;
        }
        for pipe in 1..=15 {
            if self.rng.bit() {
                self.line(&format!("close {pipe}"))?;
            }
        }
        Ok(())
    }

    /// A few calls that are lent too little.
    pub fn short_loan(&mut self) -> io::Result<()> {
        let packet_memory = self.rng.pick(&[0, 1, 4095, 4096, 4096]);
        let log = self.rng.pick(&[0, 1, 54, 191, 192, 192]);
        self.line(&format!("lend {packet_memory} {log}"))?;
        for _ in 0..self.rng.below(6) {
            match self.rng.below(4) {
                0 => self.any_begin_or_start()?,
                1 => self.any_open()?,
                2 => self.side_call()?,
                _ => {
                    let way = self.rng.pick(&[Way::In, Way::Out]);
                    self.step(way, 0, 8, 0)?;
                }
            }
        }
        self.line("lend 4096 192")
    }

    /// The longest transfers, with a sound device; two OUTs fill the record. One in three
    /// is broken off.
    fn long_transfers(&mut self) -> io::Result<()> {
        match (self.player.format, self.player.under_way) {
            (Format::Callers, _) => self.fresh_whole()?,
            (Format::Replay, Some(_)) => self.line("cancel")?,
            (Format::Replay, None) => {}
        }
        for _ in 0..self.rng.pick(&[1, 2, 3]) {
            let kind = self.rng.pick(&["fixed", "variable"]);
            let text = match self.rng.below(6) {
                0 => "control-in 127 0 64 800600010000ffff 65535".to_string(),
                1 => "control-out 127 0 64 210900000000ffff seq:65536:0:1".to_string(),
                2 => format!("bulk-in 127 15 64 {kind} 1 65535"),
                3 => format!("bulk-in 127 15 64 {kind} 0 65472"),
                4 => format!("bulk-out 127 15 64 {kind} 1 seq:65535:0:1"),
                _ => format!("bulk-out 127 15 64 {kind} 0 seq:65472:0:1"),
            };
            self.begin_alone(&text)?;
            let steps = match self.rng.once_in(3) {
                true => self.rng.below(600),
                false => u64::MAX,
            };
            self.go_on(steps)?;
            self.break_off()?;
            self.line("record")?;
        }
        Ok(())
    }

    /// Of a callers' script, everybody may ask for anything.
    fn fresh_whole(&mut self) -> io::Result<()> {
        match self.player.format {
            Format::Replay => self.line("fresh"),
            Format::Callers => self.line(&shares([u32::MAX; 8])),
        }
    }

    /// A record with room for 0 to 15 bytes more, and then a count.
    fn brimful(&mut self) -> io::Result<()> {
        self.fresh_whole()?;
        self.begin_alone("bulk-out 127 15 64 fixed 0 seq:65535:0:1")?;
        self.go_on(u64::MAX)?;
        // 54,289 would leave 5.
        let length = 54_279 + self.rng.below(16);
        self.begin_alone(&format!("bulk-out 127 15 64 fixed 0 seq:{length}:0:1"))?;
        for _ in 0..length / 128 {
            self.step(Way::Out, 0, 0x10, 0)?;
        }
        self.break_off()?;
        self.line("record")
    }

    /// Up to so many steps with a sound device.
    fn go_on(&mut self, steps: u64) -> io::Result<()> {
        for _ in 0..steps {
            let Some(under_way) = self.player.under_way else {
                break;
            };
            let (sie_status, intr) = self.device_acts(10_000)?;
            let buffer_control = self.player.bus.buffer_control;
            self.step(under_way.way, sie_status, intr, buffer_control)?;
        }
        Ok(())
    }

    /// The transfer under way, if there is one, is cancelled or fails.
    fn break_off(&mut self) -> io::Result<()> {
        match self.player.under_way {
            Some(under_way) if self.rng.bit() => {
                let error = self.rng.pick(&ERRORS);
                self.step(under_way.way, error, 0x10, 0)
            }
            Some(_) => self.line("cancel"),
            None => Ok(()),
        }
    }
}
