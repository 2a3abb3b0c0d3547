//! What the callers' scripts have where the replay scripts have begins: comings, looks
//! and starts, with the frames that they bring and the shares of the callers.

use super::{Generator, Kind};
use crate::caller_lines::{coming, shares, start_of};
use crate::script::{Format, TransferKind};
use std::io::{self, Write};

/// How many callers shall wait; another number after every 64 calls.
const CROWDS: [usize; 5] = [1, 8, 2, 5, 3];

impl<W: Write> Generator<W> {
    /// A caller comes, looks or starts.
    pub fn dispatch(&mut self) -> io::Result<()> {
        let more = self.is_begin_wanted();
        match self.rng.below(18) {
            0..3 => self.line("look"),
            3 => self.any_start(),
            4 => self.sound_begin(),
            5 | 6 => self.frame(),
            7..11 if more && self.kind.has_limits() => self.any_begin(),
            7.. if more => self.sound_begin(),
            7.. if self.player.under_way.is_none() => self.sound_start(),
            _ => self.side_call(),
        }
    }

    /// The next frame, the same one again, the one before, or any.
    fn frame(&mut self) -> io::Result<()> {
        self.frame = match self.rng.below(8) {
            0 => self.frame,
            1 => self.frame.wrapping_sub(1),
            2 => self.rng.pick(&[0, 1, 0x7ff, u32::MAX]),
            3 => self.rng.bits(),
            _ => self.frame.wrapping_add(1),
        };
        self.line(&format!("frame {}", self.frame))
    }

    /// Shares of all sorts; now and then everybody's alike.
    pub fn shares(&mut self) -> io::Result<()> {
        let mut all = [self.share(); 8];
        if !self.rng.once_in(4) {
            all = all.map(|_| self.share());
        }
        self.line(&shares(all))
    }

    fn share(&mut self) -> u32 {
        match self.rng.below(3) {
            0 => self.rng.pick(&[0, 1, 64, 65_535, u32::MAX]),
            1 => self.rng.below(70) as u32,
            _ => self.rng.below(700) as u32,
        }
    }

    /// Of callers no more shall come where enough wait.
    pub fn is_begin_wanted(&self) -> bool {
        let crowd = CROWDS[self.player.calls as usize / 64 % CROWDS.len()];
        self.player.format == Format::Replay || self.waiting().len() < crowd
    }

    /// The transfer of a begin's line comes.
    pub fn come(&mut self, begin: &str) -> io::Result<()> {
        let caller = self.caller();
        self.line(&coming(caller, begin))
    }

    /// Mostly one that doesn't wait yet.
    fn caller(&mut self) -> u64 {
        let waiting = self.waiting();
        let others: Vec<u64> =
            (0..8).filter(|caller| !waiting.contains(caller)).collect();
        match self.rng.below(8) {
            0 if self.kind != Kind::Well => self.rng.pick(&[7, 8, 9, 255]),
            2.. if !others.is_empty() => self.rng.pick(&others),
            _ => self.rng.below(8),
        }
    }

    fn waiting(&self) -> Vec<u64> {
        let dispatcher = self.player.dispatcher();
        let waits = |caller: &u64| dispatcher.waiting(*caller as u8).is_some();
        (0..8).filter(waits).collect()
    }

    /// The start that the caller whose turn it is waits for, if there is one.
    pub fn sound_start(&mut self) -> io::Result<()> {
        let (kind, length) = self.next_start();
        self.start(kind, length)
    }

    /// A start that may be of another kind or length, or both.
    pub fn any_start(&mut self) -> io::Result<()> {
        let (kind, length) = self.next_start();
        let kind = match self.rng.once_in(3) {
            true => self.any_kind(),
            false => kind,
        };
        let length = match self.rng.below(4) {
            0 => length.saturating_sub(1),
            1 => length + self.rng.pick(&[1, 1, 256, 65_536]),
            _ => length,
        };
        self.start(kind, length.min(131_072))
    }

    fn next_start(&mut self) -> (TransferKind, u64) {
        match self.player.next() {
            Some(next) => (next.request.kind(), next.length as u64),
            None => (self.any_kind(), self.rng.below(3)),
        }
    }

    fn any_kind(&mut self) -> TransferKind {
        self.rng.pick(&[
            TransferKind::Control,
            TransferKind::BulkIn,
            TransferKind::BulkOut,
        ])
    }

    fn start(&mut self, kind: TransferKind, length: u64) -> io::Result<()> {
        let buffer = match kind {
            TransferKind::BulkIn => length.to_string(),
            _ => self.bytes(length),
        };
        self.line(&start_of(kind, &buffer))
    }
}
