//! The smallest inputs of docs/DIFFERENCES.md, taken from its tables.

use super::Vectors;
use std::io::{self, Write};

const TABLES: &str = include_str!("../../../docs/DIFFERENCES.md");

/// An input that begins so is no script.
const DESCRIPTORS: &str = "descriptors ";

/// An input that begins so is a script of `callers`.
const CALLERS: &str = "callers ";

struct Row {
    number: &'static str,
    /// What is in code type under "here".
    #[cfg_attr(not(test), allow(dead_code))]
    here: Vec<&'static str>,
    /// In code type under "smallest input".
    scripts: Vec<&'static str>,
    /// The lines of `descriptorcases` there.
    #[cfg_attr(not(test), allow(dead_code))]
    configurations: Vec<&'static str>,
    /// The scripts of `callers` there.
    #[cfg_attr(not(test), allow(dead_code))]
    callers: Vec<&'static str>,
}

fn rows() -> impl Iterator<Item = Row> {
    let is_row = |line: &&str| line.starts_with("| ") && !line.starts_with("| #");
    TABLES.lines().filter(is_row).map(|line| {
        let cells: Vec<&str> = line.trim_matches('|').split('|').collect();
        let (configurations, scripts): (Vec<_>, Vec<_>) =
            in_code_type(cells[cells.len() - 1])
                .into_iter()
                .partition(|input| input.starts_with(DESCRIPTORS));
        let (callers, scripts) = scripts
            .into_iter()
            .partition(|input| input.starts_with(CALLERS));
        Row {
            number: cells[0].trim(),
            here: in_code_type(cells[3]),
            scripts,
            configurations,
            callers,
        }
    })
}

fn in_code_type(cell: &str) -> Vec<&str> {
    cell.split('`').skip(1).step_by(2).collect()
}

impl<W: Write> Vectors<W> {
    pub fn differences(&mut self) -> io::Result<()> {
        for row in rows() {
            for script in row.scripts {
                self.case(&format!("difference {}", row.number))?;
                script.split(" / ").try_for_each(|line| self.line(line))?;
                if script.starts_with("rule") {
                    self.line("rule 1")?;
                }
            }
        }
        Ok(())
    }
}

#[cfg(test)]
mod tests {
    use super::*;
    use crate::async_pool::{self, Pool};
    use crate::bitset::BitSet;
    use crate::cases::case;
    use crate::descriptors;
    use crate::driver::{Answer, Driver};
    use crate::host_controller::{DeviceStatus, TransferType, UsbSpeed};
    use crate::rp2040::view::first_at_0;
    use crate::rules::Lent;
    use crate::script::Format;

    /// Each script's last block has the answer, or a line, that its row names.
    #[test]
    fn every_script_answers_as_its_row_says() {
        let mut without = Vec::new();
        for row in rows() {
            let callers = row.callers.iter().map(|input| &input[CALLERS.len()..]);
            let callers = callers.map(|script| (Format::Callers, script));
            let scripts = row.scripts.iter().map(|script| (Format::Replay, *script));
            let scripts: Vec<_> = scripts.chain(callers).collect();
            if scripts.is_empty() && row.configurations.is_empty() {
                without.push(row.number);
            }
            for (format, script) in scripts {
                let mut out = Vec::new();
                let script = script.replace(" / ", "\n");
                crate::play(format, script.as_bytes(), &mut out).unwrap();
                let out = String::from_utf8(out).unwrap();
                let last = out
                    .trim_end_matches("\n.\n")
                    .rsplit("\n.\n")
                    .next()
                    .unwrap();
                let found = last.lines().any(|line| {
                    let line = line.strip_prefix("answer ").unwrap_or(line);
                    row.here.contains(&line)
                });
                assert!(found, "{}: {script}\n{last}", row.number);
            }
        }
        assert_eq!(without, ["1", "2", "3", "5", "15", "22"]);
    }

    /// The walk of each configuration prints a line that its row names, and the Rust's
    /// own walk of all its bytes reports something else.
    #[test]
    fn every_configuration_is_walked_as_its_row_says() {
        let stored = include_str!("../../../crates/descriptorcases/stdin");
        let mut count = 0;
        for row in rows() {
            for input in row.configurations {
                let line = input.strip_prefix(DESCRIPTORS).unwrap();
                assert!(stored.lines().any(|stored| stored == line), "{line}");
                let here = case(line.as_bytes(), descriptors::listing);
                let named = here.lines().any(|line| row.here.contains(&line));
                assert!(named, "{}: {line}\n{here}", row.number);
                let rust = case(line.as_bytes(), descriptors::rust_listing);
                assert_ne!(here, rust);
                count += 1;
            }
        }
        assert_eq!(count, 10);
    }

    #[test]
    #[should_panic(expected = "n < 32")]
    fn difference_1_set() {
        BitSet::new().set(32);
    }

    #[test]
    #[should_panic(expected = "n < 32")]
    fn difference_1_clear() {
        BitSet::new().clear(32);
    }

    #[test]
    #[should_panic(expected = "n < 32")]
    fn difference_1_contains() {
        BitSet::new().contains(32);
    }

    #[test]
    #[should_panic(expected = "total <= 32")]
    fn difference_2() {
        Pool::new(33);
    }

    #[test]
    #[should_panic(expected = "contains")]
    fn difference_3() {
        async_pool::view::free(&Pool::new(1), 0);
    }

    #[test]
    #[should_panic(expected = "divisor of zero")]
    fn difference_5_variable() {
        first_at_0(TransferType::VariableSize, &[]);
    }

    #[test]
    fn difference_5_fixed() {
        assert_eq!(first_at_0(TransferType::FixedSize, &[]), Some((0, true)));
        assert_eq!(first_at_0(TransferType::FixedSize, &[0]), Some((0, false)));
    }

    #[test]
    fn difference_15() {
        let mut driver = Driver::fresh();
        let found = |answer| matches!(answer, Ok(Answer::Device(_)));
        assert!(found(driver.detect(Lent::whole(), 0x100)));
        assert!(!found(driver.detect(Lent::whole(), 0x100)));
        driver.detect_anew();
        assert!(found(driver.detect(Lent::whole(), 0x100)));
    }

    #[test]
    fn difference_22() {
        let high = DeviceStatus::Present(UsbSpeed::High480);
        for speed in 0..4 {
            let answer = Driver::fresh().detect(Lent::whole(), speed << 8);
            assert!(!matches!(answer, Ok(Answer::Device(status)) if status == high));
        }
    }
}
