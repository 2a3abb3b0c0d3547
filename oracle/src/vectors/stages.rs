//! The stages of a transfer: what leads to each, and the calls that don't move it on.

use super::Vectors;
use crate::script::Way;
use std::io::{self, Write};

pub struct Stage {
    pub name: &'static str,
    pub way: Way,
    pub lines: &'static [&'static str],
}

const IN: &str = "control-in 9 0 8 8006000100001400 20";
const OUT: &str = "control-out 9 0 8 2109000000001400 seq:20:1:1";
const NONE: &str = "control-none 9 0 8 0009010000000000";

pub const SETUP: Stage = Stage {
    name: "SETUP of an In",
    way: Way::In,
    lines: &[IN],
};
pub const BULK_IN: Stage = Stage {
    name: "bulk IN",
    way: Way::In,
    lines: &["bulk-in 5 2 8 variable 1 20"],
};
pub const BULK_OUT: Stage = Stage {
    name: "bulk OUT",
    way: Way::Out,
    lines: &["bulk-out 5 2 8 variable 1 seq:20:1:1"],
};
pub const IN_DATA: Stage = Stage {
    name: "data of an In",
    way: Way::In,
    lines: &[IN, "step-in 0x40000 8 0"],
};
pub const OUT_DATA: Stage = Stage {
    name: "data of an Out",
    way: Way::Out,
    lines: &[OUT, "step-out 0x40000 8 0"],
};
pub const STATUS_OF_OUT: Stage = Stage {
    name: "status of an Out",
    way: Way::Out,
    lines: &[OUT, "step-out 0x40000 8 0", "step-out 0x40000 0x18 0"],
};
pub const STATUS_OF_NONE: Stage = Stage {
    name: "status of a None",
    way: Way::In,
    lines: &[NONE, "step-in 0x40000 8 0"],
};

pub const STAGES: [Stage; 10] = [
    SETUP,
    IN_DATA,
    Stage {
        name: "status of an In",
        way: Way::In,
        lines: &[IN, "step-in 0x40000 8 0", "step-in 0x40000 0x18 0x80088008"],
    },
    Stage {
        name: "SETUP of an Out",
        way: Way::Out,
        lines: &[OUT],
    },
    OUT_DATA,
    STATUS_OF_OUT,
    Stage {
        name: "SETUP of a None",
        way: Way::In,
        lines: &[NONE],
    },
    STATUS_OF_NONE,
    BULK_IN,
    BULK_OUT,
];

impl<W: Write> Vectors<W> {
    pub fn stages(&mut self) -> io::Result<()> {
        for stage in &STAGES {
            self.unmoved(stage)?;
            self.begun_again(stage)?;
            self.lent_bytes(stage)?;
        }
        Ok(())
    }

    pub fn reach(&mut self, stage: &Stage, what: &str) -> io::Result<()> {
        self.case(&format!("{}: {what}", stage.name))?;
        self.lines(stage.lines)
    }

    /// Refused calls, pipes, interrupts and detection leave the transfer as it is.
    fn unmoved(&mut self, stage: &Stage) -> io::Result<()> {
        self.reach(stage, "calls that don\'t move it, then a step")?;
        self.lines(&[
            NONE,
            "bulk-out 5 2 8 fixed 0 00",
            "buffer seq:21:0:0",
            match stage.way {
                Way::In => "step-in 0x40000 8 0",
                Way::Out => "step-out 0x40000 8 0",
            },
            match stage.way {
                Way::In => "step-out 0x40000 8 0",
                Way::Out => "step-in 0x40000 8 0",
            },
            "lend 4095 192",
            "step-in 0x40000 8 0",
            "step-out 0x40000 8 0",
            "lend 4096 192",
            "open 3 0 1 8 10",
            "poll 1 0x8002 0x00010003",
            "irq 0x7f8 0xffffffff",
            "detect 0x200",
            "close 1",
        ])?;
        self.step(stage.way, 0, 0, 0x8008_8008)?;
        self.step(stage.way, 0, 0x10, 0x8008_8008)?;
        self.step(stage.way, 0x40000, 8, 0)?;
        self.line("record")
    }

    fn begun_again(&mut self, stage: &Stage) -> io::Result<()> {
        self.reach(stage, "cancel, and the next begin")?;
        self.line("cancel")?;
        self.step(stage.way, 0x40000, 8, 0)?;
        self.lines(&["bulk-in 5 2 8 fixed 0 9", "cancel", "record"])
    }

    /// Other bytes for one step; the step after it is lent begin's again.
    fn lent_bytes(&mut self, stage: &Stage) -> io::Result<()> {
        self.reach(stage, "lent bytes that change")?;
        self.line("pm 0x180 seq:128:100:1")?;
        for (bytes, buffer_control) in [
            ("seq:20:200:1", 0x8008_0000),
            ("seq:0:200:1", 0x0408_8008),
            ("seq:19:200:1", 0x8008_8008),
            ("seq:21:200:1", 0x8008_8008),
        ] {
            self.line(&format!("buffer {bytes}"))?;
            self.step(stage.way, 0, 0x10, buffer_control)?;
            self.step(stage.way, 0, 0x10, 0)?;
        }
        self.line("buffer seq:20:50:1")?;
        self.step(stage.way, 0x40000, 8, 0x8008_8008)?;
        self.step(stage.way, 0x40000, 8, 0x8000)?;
        self.line("record")
    }
}
