//! What a step finds in SIE_STATUS and INTR, in each stage.

use super::stages::{Stage, BULK_IN, BULK_OUT, IN_DATA, SETUP, STAGES};
use super::Vectors;
use crate::player::{ERRORS, INTR_BUFF_STATUS, INTR_TRANS_COMPLETE, TRANS_COMPLETE};
use std::io::{self, Write};

/// The INTR bits of `ERRORS`.
const INTERRUPTS: [u32; 6] = [0x20, 0x400, 0x80, 0x40, 0x100, 0x200];

impl<W: Write> Vectors<W> {
    pub fn samples(&mut self) -> io::Result<()> {
        for stage in &STAGES {
            self.errors(stage)?;
        }
        for stage in [&SETUP, &BULK_IN, &BULK_OUT] {
            self.interrupts_of_errors(stage)?;
            self.pairs(stage)?;
            self.bits(stage)?;
        }
        for stage in [&SETUP, &IN_DATA, &BULK_IN, &BULK_OUT] {
            self.interrupts(stage)?;
        }
        Ok(())
    }

    /// One step on the stage, and one more to show whether the transfer ended.
    fn sample(
        &mut self,
        stage: &Stage,
        what: &str,
        sie_status: u32,
        intr: u32,
    ) -> io::Result<()> {
        self.reach(stage, &format!("{what} {sie_status:#x}, INTR {intr:#x}"))?;
        self.step(stage.way, sie_status, intr, 0)?;
        self.step(stage.way, 0, 0, 0)
    }

    /// Each error alone is among the failures.
    fn errors(&mut self, stage: &Stage) -> io::Result<()> {
        for error in ERRORS {
            self.sample(
                stage,
                "complete and error",
                TRANS_COMPLETE | error,
                INTR_TRANS_COMPLETE,
            )?;
        }
        Ok(())
    }

    /// Each error with its own INTR bit alone, and with none.
    fn interrupts_of_errors(&mut self, stage: &Stage) -> io::Result<()> {
        for (error, interrupt) in ERRORS.into_iter().zip(INTERRUPTS) {
            self.sample(stage, "error", error, interrupt)?;
            self.sample(stage, "error", error, interrupt | INTR_BUFF_STATUS)?;
            self.sample(stage, "error", error, 0)?;
        }
        self.sample(stage, "complete", TRANS_COMPLETE, 0)?;
        self.sample(stage, "everything", u32::MAX, u32::MAX)?;
        self.sample(stage, "all but complete", !TRANS_COMPLETE, u32::MAX)
    }

    fn pairs(&mut self, stage: &Stage) -> io::Result<()> {
        for (i, first) in ERRORS.into_iter().enumerate() {
            for second in &ERRORS[i + 1..] {
                self.sample(stage, "two errors", first | second, INTR_BUFF_STATUS)?;
            }
        }
        Ok(())
    }

    /// Every bit of SIE_STATUS alone.
    fn bits(&mut self, stage: &Stage) -> io::Result<()> {
        for bit in 0..32 {
            self.sample(stage, "SIE_STATUS", 1 << bit, INTR_BUFF_STATUS)?;
        }
        Ok(())
    }

    /// Every bit of INTR alone: waiting, ready or not.
    fn interrupts(&mut self, stage: &Stage) -> io::Result<()> {
        self.reach(
            stage,
            "every bit of INTR alone, then all but the ready ones",
        )?;
        for bit in 0..32 {
            self.step(stage.way, 0, 1 << bit, 0)?;
        }
        self.step(stage.way, 0, !0x7f8, 0)
    }
}
