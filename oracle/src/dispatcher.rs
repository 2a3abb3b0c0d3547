//! The dispatcher of document 02, R-9 and R-10, which the Rust hasn't got: eight callers
//! share the control pipe, each with so many bytes a frame. Quoted sentences are the
//! requests'. The turn passes within the call that ends a transfer.

use crate::rules::{self, check};
use crate::script::{Begin, Coming, Shares, Start};

const CALLERS: u8 = 8;

#[derive(Clone)]
pub struct Dispatcher {
    /// "For each caller a 32-bit share, given when it is made".
    shares: Shares,
    /// "Each caller, numbered 0 to 7, may have one transfer waiting."
    waiting: [Option<Coming>; CALLERS as usize],
    /// Whose turn it is; it stays until that caller's start.
    turn: Option<u8>,
    /// "The last that started".
    last: Option<u8>,
    /// The last that started is under way; it no longer waits.
    is_under_way: bool,
    /// The frame number last seen.
    frame: u32,
    /// The frame's own starts: each caller, with what it was charged.
    charges: Vec<(u8, u64)>,
}

impl Dispatcher {
    /// Nobody waits, and nobody has spent anything.
    pub fn new(shares: Shares) -> Self {
        Self {
            shares,
            waiting: Default::default(),
            turn: None,
            last: None,
            is_under_way: false,
            frame: 0,
            charges: Vec::new(),
        }
    }

    /// "A coming refuses with 32 a caller above 7, then with 33 a caller that already
    /// waits", "with 34, right after 33, a transfer larger than its caller's share",
    /// "then as begin does, save that 8 no longer occurs."
    pub fn come(&mut self, frame: u32, coming: Coming) -> Result<(), u8> {
        let caller = coming.caller;
        check(caller < CALLERS, rules::NO_SUCH_CALLER)?;
        check(self.waiting(caller).is_none(), rules::ALREADY_WAITS)?;
        check(coming.bytes() <= self.share(caller), rules::ABOVE_SHARE)?;
        rules::request(&coming.request, coming.length)?;
        self.see(frame);
        self.waiting[usize::from(caller)] = Some(coming);
        self.hand_out();
        Ok(())
    }

    /// "A look, never refused, answers whose turn it is, nobody's while a transfer is
    /// under way."
    pub fn look(&mut self, frame: u32) -> Option<u8> {
        *self = self.seen(frame);
        self.turn
    }

    /// "It is refused with 16 if a transfer is under way, if nobody has the turn or if
    /// that caller's transfer isn't of this call's kind or has fields a coming refuses,
    /// then with 15 if the buffer's length isn't the one it came with." No caller waits
    /// with such fields. "A transfer is charged its full requested bytes when it starts."
    /// Whose transfer starts, and the begin that it is.
    pub fn start(&mut self, frame: u32, start: Start) -> Result<(u8, Begin), u8> {
        let mut seen = self.seen(frame);
        let next = seen.next().ok_or(rules::NOTHING_TO_SERVE)?;
        let (caller, request, bytes) = (next.caller, next.request.clone(), next.bytes());
        check(request.kind() == start.kind, rules::NOTHING_TO_SERVE)?;
        check(next.length == start.buffer.len(), rules::LENT)?;
        seen.waiting[usize::from(caller)] = None;
        seen.turn = None;
        seen.last = Some(caller);
        seen.is_under_way = true;
        seen.charges.push((caller, bytes));
        assert!(seen.spent(caller) <= seen.share(caller));
        *self = seen;
        let buffer = start.buffer;
        Ok((caller, Begin { request, buffer }))
    }

    /// "When a transfer ends, by cancel too, the turn passes to the next higher number
    /// that waits, going round after 7": to the ended one's caller last of all.
    pub fn end(&mut self) {
        self.is_under_way = false;
        self.hand_out();
    }

    /// As an accepted look or start in this frame finds it.
    pub fn seen(&self, frame: u32) -> Self {
        let mut seen = self.clone();
        seen.see(frame);
        seen.hand_out();
        seen
    }

    /// What a caller's waiting transfer came with.
    pub fn waiting(&self, caller: u8) -> Option<&Coming> {
        self.waiting.get(usize::from(caller))?.as_ref()
    }

    /// What the transfer came with whose turn it is.
    pub fn next(&self) -> Option<&Coming> {
        self.waiting(self.turn?)
    }

    /// "One other than the last seen first sets every spent count to 0."
    fn see(&mut self, frame: u32) {
        if frame != self.frame {
            self.frame = frame;
            self.charges.clear();
        }
    }

    /// "If all who wait are too small, nobody has the turn. It then goes, at the first
    /// call that finds a remainder large enough, to the first such waiting caller above
    /// the last that started, going round."
    fn hand_out(&mut self) {
        if !self.is_under_way && self.turn.is_none() {
            let above = self.last.map_or(0, |last| last + 1);
            self.turn = (above..CALLERS)
                .chain(0..above)
                .find(|caller| self.is_large_enough(*caller));
        }
    }

    /// "A caller whose remainder is too small is passed over."
    fn is_large_enough(&self, caller: u8) -> bool {
        let remainder = self.share(caller) - self.spent(caller);
        self.waiting(caller)
            .is_some_and(|coming| coming.bytes() <= remainder)
    }

    fn share(&self, caller: u8) -> u64 {
        self.shares[usize::from(caller)].into()
    }

    /// "The charges summed from the frame's own starts equal the spent counts."
    fn spent(&self, caller: u8) -> u64 {
        let own = |charge: &&(u8, u64)| charge.0 == caller;
        self.charges.iter().filter(own).map(|charge| charge.1).sum()
    }
}

#[cfg(test)]
mod tests {
    use super::*;
    use crate::rng::Rng;
    use crate::script::{Phase, Request, TransferKind, Way};

    fn bulk(address: u8, endpoint: u8, size: u16, way: Way) -> Request {
        Request::Bulk {
            address,
            endpoint,
            size,
            variable: false,
            toggle: false,
            way,
        }
    }

    fn control(address: u8, size: u8, phase: Phase) -> Request {
        Request::Control {
            address,
            preamble: false,
            size,
            setup: [0; 8],
            phase,
        }
    }

    fn coming(caller: u8, request: Request, length: usize) -> Coming {
        Coming {
            caller,
            request,
            length,
        }
    }

    /// A bulk OUT of one byte.
    fn sound(caller: u8) -> Coming {
        asking(caller, 1)
    }

    /// A bulk OUT of so many bytes.
    fn asking(caller: u8, length: usize) -> Coming {
        coming(caller, bulk(5, 2, 64, Way::Out), length)
    }

    /// Everybody may ask for anything, in one frame.
    const WHOLE: Shares = [u32::MAX; 8];

    fn start(kind: TransferKind, length: usize) -> Start {
        let buffer = vec![0; length];
        Start { kind, buffer }
    }

    /// The start of what an `asking` caller came with.
    fn start_next(dispatcher: &mut Dispatcher, frame: u32) -> Result<u8, u8> {
        let length = dispatcher.seen(frame).next().map_or(1, |next| next.length);
        let started = dispatcher.start(frame, start(TransferKind::BulkOut, length))?;
        Ok(started.0)
    }

    fn sound_start(dispatcher: &mut Dispatcher) -> Result<u8, u8> {
        start_next(dispatcher, 0)
    }

    /// Those who wait when the transfer of `ended` has ended.
    fn ended_with(ended: u8, waiting: impl Iterator<Item = u8>) -> Dispatcher {
        let mut dispatcher = Dispatcher::new(WHOLE);
        dispatcher.come(0, sound(ended)).unwrap();
        assert_eq!(sound_start(&mut dispatcher), Ok(ended));
        for caller in waiting {
            dispatcher.come(0, sound(caller)).unwrap();
        }
        assert_eq!(dispatcher.look(0), None);
        dispatcher.end();
        dispatcher
    }

    /// The answers to calls from fresh on: `3` comes with one byte, `3:20` with 20, `L`
    /// looks, `S` starts what has the turn, `E` ends it; `f2`: they bring frame 2 from
    /// here on.
    fn answers(shares: Shares, calls: &str) -> String {
        let mut dispatcher = Dispatcher::new(shares);
        let mut frame = 0;
        let mut play = |call: &str| match call {
            "L" => Some(match dispatcher.look(frame) {
                Some(caller) => format!("turn {caller}"),
                None => "nobody".to_string(),
            }),
            "S" => Some(match start_next(&mut dispatcher, frame) {
                Ok(caller) => format!("started {caller}"),
                Err(number) => number.to_string(),
            }),
            "E" => {
                dispatcher.end();
                Some("ended".to_string())
            }
            other => match other.strip_prefix('f') {
                Some(number) => {
                    frame = number.parse().unwrap();
                    None
                }
                None => {
                    let (caller, length) = other.split_once(':').unwrap_or((other, "1"));
                    let length = length.parse().unwrap();
                    let coming = asking(caller.parse().unwrap(), length);
                    Some(match dispatcher.come(frame, coming) {
                        Ok(()) => "waiting".to_string(),
                        Err(number) => number.to_string(),
                    })
                }
            },
        };
        calls
            .split(' ')
            .filter_map(&mut play)
            .collect::<Vec<_>>()
            .join(", ")
    }

    #[test]
    fn smallest_cases() {
        for (calls, expected) in [
            ("L", "nobody"),
            ("S", "16"),
            ("8 255 3 3", "32, 32, waiting, 33"),
            (
                "3 L S L E L",
                "waiting, turn 3, started 3, nobody, ended, nobody",
            ),
            // The first to come.
            ("3 1 L", "waiting, waiting, turn 3"),
            // Next above 3; its own caller, who came again, last.
            (
                "3 S 1 5 3 E L S E L S E L",
                "waiting, started 3, waiting, waiting, waiting, ended, turn 5, \
                 started 5, ended, turn 1, started 1, ended, turn 3",
            ),
            // The turn had passed before 5 came.
            (
                "3 S 1 E 5 L",
                "waiting, started 3, waiting, ended, waiting, turn 1",
            ),
            // Round after 7.
            ("7 S 0 E L", "waiting, started 7, waiting, ended, turn 0"),
            // 33 is for one who waits, not for one whose transfer is under way.
            ("2 S 2 2 S", "waiting, started 2, waiting, 33, 16"),
            // With none under way or waiting, the next to come.
            (
                "2 S E L 6 0 L",
                "waiting, started 2, ended, nobody, waiting, waiting, turn 6",
            ),
            // An end with nothing under way.
            ("4 1 E L", "waiting, waiting, ended, turn 4"),
        ] {
            assert_eq!(answers(WHOLE, calls), expected, "{calls}");
        }
    }

    #[test]
    fn a_coming_is_checked_in_the_order_of_the_request() {
        let mut dispatcher = Dispatcher::new(WHOLE);
        dispatcher.come(0, sound(3)).unwrap();
        let bad = |caller| coming(caller, bulk(128, 16, 65, Way::In), 65_536);
        assert_eq!(dispatcher.come(0, bad(8)), Err(32));
        assert_eq!(dispatcher.come(0, bad(3)), Err(33));
        assert_eq!(dispatcher.come(0, bad(4)), Err(12));
        for (request, length, number) in [
            (bulk(127, 16, 65, Way::In), 65_536, 11),
            (bulk(127, 15, 65, Way::In), 65_536, 13),
            (bulk(127, 15, 64, Way::In), 65_536, 14),
            (control(128, 65, Phase::In), 0, 12),
            (control(127, 65, Phase::In), 0, 13),
        ] {
            assert_eq!(dispatcher.come(0, coming(4, request, length)), Err(number));
        }
        assert!(dispatcher.waiting(4).is_none());
        assert_eq!(dispatcher.look(0), Some(3));
        // A control's buffer may be longer.
        let long = coming(4, control(127, 64, Phase::In), 131_072);
        assert_eq!(dispatcher.come(0, long), Ok(()));
    }

    /// 16 before 15, and nothing changes by either.
    #[test]
    fn a_start_is_of_its_callers_kind_and_length() {
        for (request, kind) in [
            (control(1, 8, Phase::In), TransferKind::Control),
            (control(1, 8, Phase::Out), TransferKind::Control),
            (control(1, 8, Phase::None), TransferKind::Control),
            (bulk(1, 1, 8, Way::In), TransferKind::BulkIn),
            (bulk(1, 1, 8, Way::Out), TransferKind::BulkOut),
        ] {
            let mut dispatcher = Dispatcher::new(WHOLE);
            dispatcher.come(0, coming(6, request.clone(), 2)).unwrap();
            for other in [
                TransferKind::Control,
                TransferKind::BulkIn,
                TransferKind::BulkOut,
            ] {
                let number = if other == kind { 15 } else { 16 };
                for length in [0, 1, 3, 258] {
                    let started = dispatcher.start(0, start(other, length));
                    assert_eq!(started, Err(number));
                }
            }
            assert_eq!(dispatcher.look(0), Some(6));
            let begin = Begin {
                request,
                buffer: vec![0; 2],
            };
            assert_eq!(dispatcher.start(0, start(kind, 2)), Ok((6, begin)));
            assert_eq!(dispatcher.start(0, start(kind, 2)), Err(16));
        }
    }

    /// Each caller's end with each set of callers waiting: the turn is the nearest one's
    /// above, counted round, and is nobody's if nobody waits.
    #[test]
    fn the_turn_passes_to_the_next_higher_number() {
        for ended in 0..8 {
            for crowd in 0..1u32 << 8 {
                let waits = |caller: &u8| crowd >> caller & 1 != 0;
                let mut dispatcher = ended_with(ended, (0..8).filter(waits));
                let above = |caller: &u8| (caller + 7 - ended) % 8;
                let nearest = (0..8).filter(waits).min_by_key(above);
                assert_eq!(dispatcher.look(0), nearest);
            }
        }
    }

    /// Whoever comes later doesn't change a turn that was given.
    #[test]
    fn a_turn_stays_until_its_start() {
        for ended in 0..8 {
            for turn in 0..8 {
                let mut dispatcher = ended_with(ended, [turn].into_iter());
                for late in (0..8).filter(|late| *late != turn) {
                    dispatcher.come(0, sound(late)).unwrap();
                    assert_eq!(dispatcher.look(0), Some(turn));
                }
                assert_eq!(dispatcher.come(0, sound(turn)), Err(33));
                assert_eq!(
                    dispatcher.start(0, start(TransferKind::BulkIn, 1)).err(),
                    Some(16)
                );
                assert_eq!(dispatcher.look(0), Some(turn));
                assert_eq!(sound_start(&mut dispatcher), Ok(turn));
            }
        }
    }

    /// "From a fresh driver at most seven transfers of others end between a caller's
    /// coming and its turn"; seven do, if each of the others comes again at once.
    #[test]
    fn at_most_seven_others_end() {
        let mut rng = Rng::new(9);
        let mut dispatcher = Dispatcher::new(WHOLE);
        let mut ends = [0; 8];
        let mut most = 0;
        for _ in 0..100_000 {
            let caller = rng.below(8) as u8;
            match rng.below(4) {
                0 if dispatcher.is_under_way => {
                    let ended = dispatcher.last;
                    dispatcher.end();
                    for (caller, ends) in (0..8).zip(&mut ends) {
                        let waits = dispatcher.waiting(caller).is_some();
                        *ends += u32::from(waits && ended != Some(caller));
                    }
                }
                1 if dispatcher.look(0).is_some() => {
                    let started = sound_start(&mut dispatcher).unwrap();
                    most = most.max(ends[usize::from(started)]);
                }
                _ if dispatcher.come(0, sound(caller)).is_ok() => {
                    ends[usize::from(caller)] = 0;
                }
                _ => {}
            }
        }
        assert_eq!(most, 7);
    }

    /// Shares of 4 bytes, then of none.
    #[test]
    fn smallest_cases_of_shares() {
        for (calls, expected) in [
            ("0:5 0:4", "34, waiting"),
            // The remainder is 1; a new frame makes it 4.
            (
                "f1 0:3 S E 0:2 L f2 L",
                "waiting, started 0, ended, waiting, nobody, turn 0",
            ),
            // 0 is passed over; a start of 1 in another frame leaves 0 the next.
            (
                "f1 0:3 S 0:2 1:4 E L f2 S E L",
                "waiting, started 0, waiting, waiting, ended, turn 1, started 1, ended, \
                 turn 0",
            ),
            // At the end 1 was too small in frame 1.
            (
                "f1 1:3 S E 0:1 S 1:2 2:1 E f2 L",
                "waiting, started 1, ended, waiting, started 0, waiting, waiting, ended, \
                 turn 2",
            ),
            // 0 came after the end.
            (
                "f1 7:3 S 1:3 E f2 0:4 L",
                "waiting, started 7, waiting, ended, waiting, turn 1",
            ),
            // Refused calls bring no frame.
            (
                "f1 0:3 S E 0:2 f2 0:1 8 1:5 f1 L",
                "waiting, started 0, ended, waiting, 33, 32, 34, nobody",
            ),
            // A start may find the remainder large enough.
            (
                "f1 0:3 S E 0:2 S f2 S",
                "waiting, started 0, ended, waiting, 16, started 0",
            ),
            // A look while a transfer is under way brings its frame, a coming too.
            (
                "f1 0:3 S f2 L E 0:4 L",
                "waiting, started 0, nobody, ended, waiting, turn 0",
            ),
            (
                "f1 0:3 S f2 1 E 0:4 S E L",
                "waiting, started 0, waiting, ended, waiting, started 1, ended, turn 0",
            ),
            // Back to the frame before: counts are 0 again.
            (
                "f1 0:4 S E f2 0:4 S E f1 0:4 S E 0 L",
                "waiting, started 0, ended, waiting, started 0, ended, waiting, \
                 started 0, ended, waiting, nobody",
            ),
            // Two wait too small; the newcomer that brings the frame is above them.
            (
                "f1 1:4 S E 2:4 S E 1:2 2:2 L f2 3 L",
                "waiting, started 1, ended, waiting, started 2, ended, waiting, \
                 waiting, nobody, waiting, turn 3",
            ),
        ] {
            assert_eq!(answers([4; 8], calls), expected, "{calls}");
        }
        let none = "5:1 5:0 L S 5:0 E L";
        let expected = "34, waiting, turn 5, started 5, waiting, ended, turn 5";
        assert_eq!(answers([0; 8], none), expected);
    }

    /// "In one frame no caller's charges pass its share": every share and every two
    /// transfers around it, in one frame and in two.
    #[test]
    fn a_remainder_suffices_up_to_the_share() {
        for share in 0..5 {
            for first in 0..=share {
                for second in 0..=share {
                    for next in [0, 1] {
                        let mut dispatcher = Dispatcher::new([share; 8]);
                        dispatcher.come(0, asking(2, first as usize)).unwrap();
                        assert_eq!(start_next(&mut dispatcher, 0), Ok(2));
                        dispatcher.end();
                        dispatcher.come(0, asking(2, second as usize)).unwrap();
                        let fits = next == 1 || first + second <= share;
                        assert_eq!(dispatcher.look(next), fits.then_some(2));
                        let number = rules::NOTHING_TO_SERVE;
                        let expected = fits.then_some(2).ok_or(number);
                        assert_eq!(start_next(&mut dispatcher, next), expected);
                    }
                }
            }
        }
    }

    /// "R-9's bound counts from when it suffices."
    #[test]
    fn at_most_seven_others_end_from_when_it_suffices() {
        let mut rng = Rng::new(10);
        let mut dispatcher = Dispatcher::new([3, 0, 9, 4, 2, 7, 5, 6]);
        let (mut ends, mut most, mut frame) = ([0; 8], 0, 0);
        for _ in 0..200_000 {
            match rng.below(8) {
                0..2 if dispatcher.is_under_way => {
                    let ended = dispatcher.last;
                    let sufficed =
                        (0..8).map(|caller| dispatcher.is_large_enough(caller));
                    let sufficed: Vec<bool> = sufficed.collect();
                    dispatcher.end();
                    for caller in 0..8 {
                        let counts = sufficed[caller] && ended != Some(caller as u8);
                        ends[caller] += u32::from(counts);
                    }
                }
                2..4 => {
                    if let Ok(started) = start_next(&mut dispatcher, frame) {
                        most = most.max(ends[usize::from(started)]);
                        ends[usize::from(started)] = 0;
                    }
                }
                4 if rng.once_in(4) => frame = rng.below(3) as u32,
                5 => {
                    dispatcher.look(frame);
                }
                _ => {
                    let coming = asking(rng.below(8) as u8, rng.below(5) as usize);
                    let _ = dispatcher.come(frame, coming);
                }
            }
        }
        assert_eq!(most, 7);
    }
}
