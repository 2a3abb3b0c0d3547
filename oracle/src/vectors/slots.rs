//! What a step finds in EP_BUFFER_CONTROL: both slots' AVAILABLE and FULL in all
//! combinations, with none, one and two packets in flight, and the lengths of IN slots.

use super::stages::{IN_DATA, OUT_DATA};
use super::{bulk, Vectors};
use crate::script::Way;
use std::io::{self, Write};

const SIZE: u32 = 8;
/// The lengths in both slots.
const LENGTHS: u32 = SIZE << 16 | SIZE;
/// The slots' bytes as a device may have left them.
const BYTES: &str = "pm 0x180 seq:128:100:1";

/// Where a bulk transfer stands: its length, and EP_BUFFER_CONTROL of the steps so far,
/// as for IN.
struct Standing {
    name: &'static str,
    length: u32,
    steps: &'static [u32],
}

const STANDINGS: [Standing; 5] = [
    Standing {
        name: "two in flight, more to come",
        length: 5 * SIZE,
        steps: &[],
    },
    Standing {
        name: "two in flight, no more to come",
        length: 2 * SIZE,
        steps: &[],
    },
    Standing {
        name: "one in flight, more to come",
        length: 5 * SIZE,
        steps: &[0x0408_8408],
    },
    Standing {
        name: "one in flight, no more to come",
        length: 1,
        steps: &[],
    },
    Standing {
        name: "none in flight, more to come",
        length: 5 * SIZE,
        steps: &[0x8408_8408],
    },
];

impl<W: Write> Vectors<W> {
    pub fn slots(&mut self) -> io::Result<()> {
        for way in [Way::In, Way::Out] {
            for standing in &STANDINGS {
                self.flags(way, standing)?;
            }
        }
        self.flags_of_data_stages()?;
        self.lengths()?;
        self.more_than_the_size()
    }

    fn stand(&mut self, way: Way, standing: &Standing, what: &str) -> io::Result<()> {
        self.case(&format!("bulk {way:?}, {}: {what}", standing.name))?;
        self.line(&bulk(way, SIZE, "fixed", 1, standing.length))?;
        if way == Way::In {
            self.line(BYTES)?;
        }
        for sample in standing.steps {
            // An IN slot is retired if it is full, an OUT slot if it isn't.
            let sample = if way == Way::In {
                *sample
            } else {
                sample ^ 0x8000_8000
            };
            self.step(way, 0, 0x10, sample)?;
        }
        Ok(())
    }

    /// A step that goes on, with one more to show what it left, and one that completes.
    fn flags(&mut self, way: Way, standing: &Standing) -> io::Result<()> {
        // An OUT slot's length says nothing.
        let lengths = if way == Way::In { LENGTHS } else { 0 };
        for flags in all_flags() {
            let what = format!("flags {flags:#010x}");
            self.stand(way, standing, &what)?;
            self.step(way, 0, 0x10, flags | lengths)?;
            self.step(way, 0, 0x10, lengths)?;
            self.stand(way, standing, &format!("{what}, complete"))?;
            self.step(way, 0x40000, 8, flags | lengths)?;
        }
        Ok(())
    }

    /// A completed data stage: the status packet is armed whatever the sample shows.
    fn flags_of_data_stages(&mut self) -> io::Result<()> {
        for stage in [&IN_DATA, &OUT_DATA] {
            for flags in all_flags() {
                self.reach(stage, &format!("flags {flags:#010x}, complete"))?;
                self.step(stage.way, 0x40000, 8, flags | LENGTHS)?;
                self.step(stage.way, 0, 0x10, flags)?;
                self.step(stage.way, 0x40000, 8, flags)?;
            }
        }
        Ok(())
    }

    /// Two IN slots, full, of every two lengths.
    fn lengths(&mut self) -> io::Result<()> {
        for (size, length) in [(8, 20), (64, 100), (1, 3)] {
            let mut lengths = vec![0, 1, size - 1, size, size + 1, 64, 65, 1023];
            lengths.sort_unstable();
            lengths.dedup();
            for first in &lengths {
                for second in &lengths {
                    if size == 8 || first == second || *second == size {
                        self.two_lengths(size, length, *first, *second)?;
                    }
                }
            }
        }
        Ok(())
    }

    fn two_lengths(
        &mut self,
        size: u32,
        length: u32,
        first: u32,
        second: u32,
    ) -> io::Result<()> {
        self.case(&format!("bulk In at {size}: slots of {first} and {second}"))?;
        for (sie_status, intr) in [(0, 0x10), (0x40000, 8)] {
            self.lines(&[&bulk(Way::In, size, "fixed", 0, length), BYTES])?;
            let full = 0x8000 | first | (0x8000 | second) << 16;
            self.step(Way::In, sie_status, intr, full)?;
            self.step(Way::In, 0x40000, 8, 0)?;
        }
        Ok(())
    }

    /// A device that sends 64 bytes into slots of 8: the buffer is full before all
    /// packets are armed, and the transfer goes on.
    fn more_than_the_size(&mut self) -> io::Result<()> {
        self.case("bulk In at 8: packets of 64")?;
        self.lines(&[&bulk(Way::In, 8, "variable", 0, 64), BYTES])?;
        for _ in 0..6 {
            self.step(Way::In, 0, 0x10, 0x8040_8040)?;
        }
        self.step(Way::In, 0x40000, 8, 0x8040_8040)
    }
}

/// AVAILABLE and FULL of both slots in all combinations.
pub fn all_flags() -> impl Iterator<Item = u32> {
    let half = |bits: u32| (bits & 1) << 10 | (bits >> 1 & 1) << 15;
    (0..16).map(move |bits| half(bits) | half(bits >> 2) << 16)
}
