//! The lines of the replay script and of the callers' script.

use std::fmt;

const LONGEST: u64 = 131_072;
const LONGEST_LINE: usize = 300_000;
const PACKET_MEMORY: u64 = 4096;
const LOG: u64 = 192;

/// Two formats, with the same lines but for those that begin a transfer.
#[derive(Clone, Copy, Debug, PartialEq, Eq)]
pub enum Format {
    /// docs/REPLAY.md: a transfer begins.
    Replay,
    /// Document 02, R-9 and R-10: a transfer comes and, when it is its caller's turn,
    /// starts.
    Callers,
}

#[derive(Clone, Debug, PartialEq, Eq)]
pub enum Line {
    Fresh,
    Rule(DeskRule),
    Lend { packet_memory: usize, log: usize },
    PacketMemory { offset: usize, bytes: Vec<u8> },
    Begin(Begin),
    Come(Coming),
    Look,
    Start(Start),
    Frame(u32),
    Shares(Shares),
    Buffer(Vec<u8>),
    Step(Step),
    Cancel,
    Open(Open),
    Close(u8),
    Poll(Poll),
    Irq { ints: u32, buff_status: u32 },
    Detect { sie_status: u32 },
    Record,
}

/// Document 02, R-6.
#[derive(Clone, Copy, Debug, PartialEq, Eq)]
pub enum DeskRule {
    One,
    Two,
}

/// What a transfer begins with; the buffer is the one lent.
#[derive(Clone, Debug, PartialEq, Eq)]
pub struct Begin {
    pub request: Request,
    pub buffer: Vec<u8>,
}

/// A caller's transfer, with its buffer's length alone.
#[derive(Clone, Debug, PartialEq, Eq)]
pub struct Coming {
    pub caller: u8,
    pub request: Request,
    pub length: usize,
}

impl Coming {
    /// "Its full requested bytes ..: wLength or the bulk buffer's length."
    pub fn bytes(&self) -> u64 {
        match self.request {
            Request::Control { setup, .. } => {
                u16::from_le_bytes([setup[6], setup[7]]).into()
            }
            Request::Bulk { .. } => self.length as u64,
        }
    }
}

/// Document 02, R-10: those of callers 0 to 7, in bytes a frame.
pub type Shares = [u32; 8];

/// The buffer of the caller whose turn it is.
#[derive(Clone, Debug, PartialEq, Eq)]
pub struct Start {
    pub kind: TransferKind,
    pub buffer: Vec<u8>,
}

/// The fields of a begin.
#[derive(Clone, Debug, PartialEq, Eq)]
pub enum Request {
    Control {
        address: u8,
        preamble: bool,
        size: u8,
        setup: [u8; 8],
        phase: Phase,
    },
    Bulk {
        address: u8,
        endpoint: u8,
        size: u16,
        variable: bool,
        toggle: bool,
        way: Way,
    },
}

/// A control's data phase.
#[derive(Clone, Copy, Debug, PartialEq, Eq)]
pub enum Phase {
    In,
    Out,
    None,
}

/// The calls that start a transfer, one for each.
#[derive(Clone, Copy, Debug, PartialEq, Eq)]
pub enum TransferKind {
    Control,
    BulkIn,
    BulkOut,
}

impl Request {
    pub fn size(&self) -> u16 {
        match self {
            Request::Control { size, .. } => (*size).into(),
            Request::Bulk { size, .. } => *size,
        }
    }

    pub fn kind(&self) -> TransferKind {
        match self {
            Request::Control { .. } => TransferKind::Control,
            Request::Bulk { way: Way::In, .. } => TransferKind::BulkIn,
            Request::Bulk { way: Way::Out, .. } => TransferKind::BulkOut,
        }
    }

    /// The step that serves it.
    pub fn way(&self) -> Way {
        match self {
            Request::Control { phase, .. } => match phase {
                Phase::In | Phase::None => Way::In,
                Phase::Out => Way::Out,
            },
            Request::Bulk { way, .. } => *way,
        }
    }

    /// Only a control None has no buffer.
    fn has_buffer(&self) -> bool {
        !matches!(
            self,
            Request::Control {
                phase: Phase::None,
                ..
            }
        )
    }
}

#[derive(Clone, Copy, Debug, PartialEq, Eq)]
pub enum Way {
    In,
    Out,
}

#[derive(Clone, Copy, Debug, PartialEq, Eq)]
pub struct Step {
    pub way: Way,
    pub sie_status: u32,
    pub intr: u32,
    pub buffer_control: u32,
}

impl Step {
    pub fn new(way: Way, sie_status: u32, intr: u32, buffer_control: u32) -> Self {
        Self {
            way,
            sie_status,
            intr,
            buffer_control,
        }
    }
}

impl fmt::Display for Step {
    fn fmt(&self, f: &mut fmt::Formatter<'_>) -> fmt::Result {
        let way = match self.way {
            Way::In => "in",
            Way::Out => "out",
        };
        let (sie_status, intr) = (self.sie_status, self.intr);
        let buffer_control = self.buffer_control;
        write!(
            f,
            "step-{way} {sie_status:#x} {intr:#x} {buffer_control:#x}"
        )
    }
}

#[derive(Clone, Copy, Debug, PartialEq, Eq)]
pub struct Open {
    pub address: u8,
    pub preamble: bool,
    pub endpoint: u8,
    pub size: u16,
    pub interval: u8,
}

#[derive(Clone, Copy, Debug, PartialEq, Eq)]
pub struct Poll {
    pub pipe: u8,
    pub buffer_control: u32,
    pub host_addr_endp: u32,
}

#[derive(Clone, Copy, Debug, PartialEq, Eq)]
pub struct Unreadable;

pub type Read<T> = Result<T, Unreadable>;

/// A line without its LF: what it asks for, or nothing if it is skipped.
pub fn parse(line: &[u8], format: Format) -> Read<Option<Line>> {
    read(line, |fields| fields.line(format))
}

/// The same of lines of another format.
pub fn read<'a, T>(
    line: &'a [u8],
    format: impl Fn(&mut Fields<'a>) -> Read<T>,
) -> Read<Option<T>> {
    if line.is_empty() || line[0] == b'#' {
        return Ok(None);
    }
    if line.len() > LONGEST_LINE {
        return Err(Unreadable);
    }
    let line = std::str::from_utf8(line).map_err(|_| Unreadable)?;
    let mut fields = Fields(line.split(' '));
    let asked = format(&mut fields)?;
    match fields.0.next() {
        None => Ok(Some(asked)),
        Some(_) => Err(Unreadable),
    }
}

pub struct Fields<'a>(std::str::Split<'a, char>);

impl<'a> Fields<'a> {
    fn line(&mut self, format: Format) -> Read<Line> {
        Ok(match self.word()? {
            "fresh" => Line::Fresh,
            "rule" => Line::Rule(self.rule()?),
            "lend" => Line::Lend {
                packet_memory: self.number(PACKET_MEMORY)? as usize,
                log: self.number(LOG)? as usize,
            },
            "pm" => self.packet_memory()?,
            "buffer" => Line::Buffer(self.bytes()?),
            "step-in" => self.step(Way::In)?,
            "step-out" => self.step(Way::Out)?,
            "cancel" => Line::Cancel,
            "open" => Line::Open(Open {
                address: self.byte()?,
                preamble: self.bit()?,
                endpoint: self.byte()?,
                size: self.size()?,
                interval: self.byte()?,
            }),
            "close" => Line::Close(self.byte()?),
            "poll" => Line::Poll(Poll {
                pipe: self.byte()?,
                buffer_control: self.register()?,
                host_addr_endp: self.register()?,
            }),
            "irq" => Line::Irq {
                ints: self.register()?,
                buff_status: self.register()?,
            },
            "detect" => Line::Detect {
                sie_status: self.register()?,
            },
            "record" => Line::Record,
            word => match format {
                Format::Replay => Line::Begin(self.begin(word)?),
                Format::Callers => self.callers(word)?,
            },
        })
    }

    /// An IN's buffer is all 0 at first.
    fn begin(&mut self, word: &str) -> Read<Begin> {
        let request = self.request(word)?;
        let buffer = match (request.has_buffer(), request.way()) {
            (false, _) => Vec::new(),
            (true, Way::In) => vec![0; self.length()?],
            (true, Way::Out) => self.bytes()?,
        };
        Ok(Begin { request, buffer })
    }

    fn callers(&mut self, word: &str) -> Read<Line> {
        Ok(match word {
            "come" => Line::Come(self.coming()?),
            "look" => Line::Look,
            "frame" => Line::Frame(self.register()?),
            "shares" => Line::Shares(self.shares()?),
            "start-control" => start(TransferKind::Control, self.bytes()?),
            "start-bulk-in" => start(TransferKind::BulkIn, vec![0; self.length()?]),
            "start-bulk-out" => start(TransferKind::BulkOut, self.bytes()?),
            _ => return Err(Unreadable),
        })
    }

    fn coming(&mut self) -> Read<Coming> {
        let caller = self.byte()?;
        let word = self.word()?;
        let request = self.request(word)?;
        let length = match request.has_buffer() {
            true => self.length()?,
            false => 0,
        };
        Ok(Coming {
            caller,
            request,
            length,
        })
    }

    fn shares(&mut self) -> Read<Shares> {
        let mut shares = Shares::default();
        for share in &mut shares {
            *share = self.register()?;
        }
        Ok(shares)
    }

    fn request(&mut self, word: &str) -> Read<Request> {
        match word {
            "control-in" => self.control(Phase::In),
            "control-out" => self.control(Phase::Out),
            "control-none" => self.control(Phase::None),
            "bulk-in" => self.bulk(Way::In),
            "bulk-out" => self.bulk(Way::Out),
            _ => Err(Unreadable),
        }
    }

    fn packet_memory(&mut self) -> Read<Line> {
        let offset = self.number(PACKET_MEMORY)?;
        let bytes = self.bytes()?;
        if offset + bytes.len() as u64 > PACKET_MEMORY {
            return Err(Unreadable);
        }
        Ok(Line::PacketMemory {
            offset: offset as usize,
            bytes,
        })
    }

    fn control(&mut self, phase: Phase) -> Read<Request> {
        Ok(Request::Control {
            address: self.byte()?,
            preamble: self.bit()?,
            size: self.byte()?,
            setup: hexadecimal(self.word()?)
                .and_then(|bytes| bytes.try_into().ok())
                .ok_or(Unreadable)?,
            phase,
        })
    }

    fn bulk(&mut self, way: Way) -> Read<Request> {
        Ok(Request::Bulk {
            address: self.byte()?,
            endpoint: self.byte()?,
            size: self.size()?,
            variable: match self.word()? {
                "fixed" => false,
                "variable" => true,
                _ => return Err(Unreadable),
            },
            toggle: self.bit()?,
            way,
        })
    }

    fn step(&mut self, way: Way) -> Read<Line> {
        let mut word = || self.register();
        Ok(Line::Step(Step::new(way, word()?, word()?, word()?)))
    }

    pub fn word(&mut self) -> Read<&'a str> {
        self.0.next().ok_or(Unreadable)
    }

    pub fn number(&mut self, most: u64) -> Read<u64> {
        number(self.word()?, most)
    }

    pub fn byte(&mut self) -> Read<u8> {
        Ok(self.number(u8::MAX.into())? as u8)
    }

    /// A byte, or the given one where there is no field left.
    pub fn byte_or(&mut self, otherwise: u8) -> Read<u8> {
        match self.0.next() {
            Some(word) => Ok(number(word, u8::MAX.into())? as u8),
            None => Ok(otherwise),
        }
    }

    pub fn size(&mut self) -> Read<u16> {
        Ok(self.number(u16::MAX.into())? as u16)
    }

    fn rule(&mut self) -> Read<DeskRule> {
        match self.number(2)? {
            1 => Ok(DeskRule::One),
            2 => Ok(DeskRule::Two),
            _ => Err(Unreadable),
        }
    }

    fn bit(&mut self) -> Read<bool> {
        Ok(self.number(1)? == 1)
    }

    fn register(&mut self) -> Read<u32> {
        Ok(self.number(u32::MAX.into())? as u32)
    }

    fn length(&mut self) -> Read<usize> {
        Ok(self.number(LONGEST)? as usize)
    }

    pub fn bytes(&mut self) -> Read<Vec<u8>> {
        bytes(self.word()?)
    }
}

fn start(kind: TransferKind, buffer: Vec<u8>) -> Line {
    Line::Start(Start { kind, buffer })
}

fn number(word: &str, most: u64) -> Read<u64> {
    let (digits, base) = match word.strip_prefix("0x") {
        Some(digits) => (digits, 16),
        None => (word, 10),
    };
    if digits.is_empty() {
        return Err(Unreadable);
    }
    let mut value = 0u64;
    for digit in digits.chars() {
        let digit = digit.to_digit(base).ok_or(Unreadable)?;
        value = value
            .saturating_mul(base.into())
            .saturating_add(digit.into());
    }
    match value <= most {
        true => Ok(value),
        false => Err(Unreadable),
    }
}

pub fn bytes(word: &str) -> Read<Vec<u8>> {
    if word == "-" {
        return Ok(Vec::new());
    }
    if let Some(sequence) = word.strip_prefix("seq:") {
        return self::sequence(sequence);
    }
    match hexadecimal(word) {
        Some(bytes) if (1..=LONGEST).contains(&(bytes.len() as u64)) => Ok(bytes),
        _ => Err(Unreadable),
    }
}

fn sequence(word: &str) -> Read<Vec<u8>> {
    let parts: Vec<&str> = word.split(':').collect();
    let [length, start, step] = parts[..] else {
        return Err(Unreadable);
    };
    let length = number(length, LONGEST)?;
    let start = number(start, u8::MAX.into())?;
    let step = number(step, u8::MAX.into())?;
    Ok((0..length)
        .map(|i| (start + step * i + i / 256) as u8)
        .collect())
}

fn hexadecimal(word: &str) -> Option<Vec<u8>> {
    let digits: Option<Vec<u8>> = word
        .chars()
        .map(|digit| digit.to_digit(16).map(|digit| digit as u8))
        .collect();
    let digits = digits?;
    if digits.len() % 2 != 0 {
        return None;
    }
    Some(
        digits
            .chunks(2)
            .map(|pair| pair[0] << 4 | pair[1])
            .collect(),
    )
}

#[cfg(test)]
mod tests {
    use super::*;

    fn read(line: &str) -> Line {
        parse(line.as_bytes(), Format::Replay).unwrap().unwrap()
    }

    fn wrong(line: &str) -> bool {
        parse(line.as_bytes(), Format::Replay).is_err()
    }

    #[test]
    fn skips_empty_lines_and_comments() {
        assert_eq!(parse(b"", Format::Replay), Ok(None));
        assert_eq!(parse(b"# fresh", Format::Replay), Ok(None));
        assert!(wrong(" "));
        assert!(wrong(" # fresh"));
    }

    #[test]
    fn reads_numbers() {
        assert_eq!(read("close 15"), Line::Close(15));
        assert_eq!(read("close 0x0F"), Line::Close(15));
        assert_eq!(
            read("irq 0xffffffff 4294967295"),
            Line::Irq {
                ints: u32::MAX,
                buff_status: u32::MAX
            }
        );
        for line in [
            "close",
            "close ",
            "close 0x",
            "close -1",
            "close +1",
            "close 1a",
            "close 256",
            "close 1 ",
            "close 1 2",
            "close  1",
            "close 0X1",
            "irq 0x100000000 0",
            "irq 0 99999999999999999999999",
            "close 1\r",
            "closed 1",
        ] {
            assert!(wrong(line), "{line}");
        }
    }

    #[test]
    fn reads_lines_up_to_the_longest() {
        let line = |length: usize| format!("close {}", "0".repeat(length - 6));
        assert!(!wrong(&line(LONGEST_LINE)));
        assert!(wrong(&line(LONGEST_LINE + 1)));
        let comment = [b'#'; LONGEST_LINE + 1];
        assert_eq!(parse(&comment, Format::Replay), Ok(None));
    }

    #[test]
    fn reads_bytes() {
        assert_eq!(read("buffer -"), Line::Buffer(vec![]));
        assert_eq!(read("buffer aB01"), Line::Buffer(vec![0xab, 1]));
        assert_eq!(read("buffer seq:3:254:1"), Line::Buffer(vec![254, 255, 0]));
        assert_eq!(read("buffer seq:0:0:0"), Line::Buffer(vec![]));
        let Line::Buffer(long) = read("buffer seq:131072:1:2") else {
            panic!()
        };
        assert_eq!(long.len(), 131_072);
        assert_eq!(long[256], (1 + 2 * 256 + 1) as u8);
        for line in [
            "buffer",
            "buffer ",
            "buffer a",
            "buffer gg",
            "buffer seq:131073:0:0",
            "buffer seq:1:256:0",
            "buffer seq:1:0:256",
            "buffer seq:1:0",
            "buffer seq:1:0:0:0",
        ] {
            assert!(wrong(line), "{line}");
        }
        assert!(wrong(&format!("buffer {}", "00".repeat(131_073))));
        assert!(!wrong(&format!("buffer {}", "00".repeat(131_072))));
    }

    #[test]
    fn reads_packet_memory_up_to_its_end() {
        assert!(!wrong("pm 4095 00"));
        assert!(!wrong("pm 4096 -"));
        assert!(wrong("pm 4095 0000"));
        assert!(wrong("pm 4097 -"));
        assert!(wrong("lend 4097 0"));
        assert!(wrong("lend 0 193"));
    }

    const CONTROL_OUT: Request = Request::Control {
        address: 1,
        preamble: false,
        size: 8,
        setup: [0x21, 9, 0, 0, 0, 0, 10, 0],
        phase: Phase::Out,
    };

    const BULK_IN: Request = Request::Bulk {
        address: 200,
        endpoint: 16,
        size: 65535,
        variable: true,
        toggle: true,
        way: Way::In,
    };

    #[test]
    fn reads_begins() {
        assert_eq!(
            read("control-out 1 0 8 2109000000000a00 00"),
            Line::Begin(Begin {
                request: CONTROL_OUT,
                buffer: vec![0],
            })
        );
        assert_eq!(
            read("bulk-in 200 16 65535 variable 1 131072"),
            Line::Begin(Begin {
                request: BULK_IN,
                buffer: vec![0; 131_072],
            })
        );
        for line in [
            "control-in 1 0 8 2109000000000a 0",
            "control-in 1 2 8 2109000000000a00 0",
            "control-in 1 0 256 2109000000000a00 0",
            "control-none 1 0 8 2109000000000a00 -",
            "bulk-in 1 1 65536 fixed 0 0",
            "bulk-in 1 1 8 Fixed 0 0",
            "bulk-in 1 1 8 fixed 0 131073",
            "bulk-out 1 1 8 fixed 0",
        ] {
            assert!(wrong(line), "{line}");
        }
    }

    #[test]
    fn reads_comings_and_starts() {
        let read = |line: &str| parse(line.as_bytes(), Format::Callers).unwrap().unwrap();
        let come = |caller, request, length| {
            Line::Come(Coming {
                caller,
                request,
                length,
            })
        };
        assert_eq!(
            read("come 255 control-out 1 0 8 2109000000000a00 131072"),
            come(255, CONTROL_OUT, 131_072)
        );
        assert_eq!(
            read("come 0 bulk-in 200 16 65535 variable 1 0"),
            come(0, BULK_IN, 0)
        );
        assert_eq!(read("look"), Line::Look);
        assert_eq!(
            read("start-control 0102"),
            start(TransferKind::Control, vec![1, 2])
        );
        assert_eq!(
            read("start-bulk-in 2"),
            start(TransferKind::BulkIn, vec![0, 0])
        );
        assert_eq!(
            read("start-bulk-out -"),
            start(TransferKind::BulkOut, vec![])
        );
        assert_eq!(read("frame 0xffffffff"), Line::Frame(u32::MAX));
        assert_eq!(
            read("shares 0 1 2 3 4 5 6 4294967295"),
            Line::Shares([0, 1, 2, 3, 4, 5, 6, u32::MAX])
        );
    }

    /// "wLength or the bulk buffer's length".
    #[test]
    fn a_control_asks_for_its_w_length() {
        let bytes = |request, length| {
            let caller = 0;
            Coming {
                caller,
                request,
                length,
            }
            .bytes()
        };
        assert_eq!(bytes(CONTROL_OUT, 3), 10);
        assert_eq!(bytes(BULK_IN, 3), 3);
    }

    /// Neither format has the other's lines; what they share is read alike.
    #[test]
    fn each_format_begins_transfers_its_own_way() {
        for (line, format) in [
            ("control-none 1 0 8 2109000000000a00", Format::Replay),
            ("bulk-out 1 1 8 fixed 0 00", Format::Replay),
            (
                "come 0 control-none 1 0 8 2109000000000a00",
                Format::Callers,
            ),
            ("look", Format::Callers),
            ("start-bulk-in 0", Format::Callers),
            ("frame 1", Format::Callers),
            ("shares 1 2 3 4 5 6 7 8", Format::Callers),
        ] {
            for tried in [Format::Replay, Format::Callers] {
                let read = parse(line.as_bytes(), tried);
                assert_eq!(read.is_ok(), tried == format, "{line}");
            }
        }
        for line in ["fresh", "rule 2", "step-in 0 8 0", "close 256", "frame -1"] {
            let read = |format| parse(line.as_bytes(), format);
            assert_eq!(read(Format::Replay), read(Format::Callers), "{line}");
        }
    }
}
