//! Many inputs, each a line of bytes, as `descriptorcases`, `wirecases` and
//! `wirepacketcases` have them; and the lines that `packets` and `shortgroups` answer.

use crate::print::not_a_line;
use crate::script::{self, Fields, Read};

/// An input of more bytes is refused with 21.
pub const LONGEST: usize = 65_536;

/// Prints each line's bytes by `listing`, with a line `.` after each.
pub fn print(lines: &[u8], listing: impl Fn(&[u8]) -> String) -> Vec<u8> {
    lines
        .split(|byte| *byte == b'\n')
        .filter(|line| !line.is_empty() && line[0] != b'#')
        .flat_map(|line| (case(line, &listing) + ".\n").into_bytes())
        .collect()
}

/// What is printed of a line's bytes.
pub fn case(line: &[u8], listing: impl Fn(&[u8]) -> String) -> String {
    match std::str::from_utf8(line).map(script::bytes) {
        Ok(Ok(bytes)) => listing(&bytes),
        _ => "not hexadecimal\n".to_string(),
    }
}

/// The answers to an input's lines, read as `format` says.
pub fn answers<T>(
    input: &[u8],
    format: fn(&mut Fields) -> Read<T>,
    mut answer: impl FnMut(T) -> String,
) -> Vec<u8> {
    if input.len() > LONGEST {
        return refused(21).into_bytes();
    }
    let mut text = String::new();
    for (number, line) in (1..).zip(input.split(|byte| *byte == b'\n')) {
        match script::read(line, format) {
            Ok(Some(asked)) => text += &answer(asked),
            Ok(None) => {}
            Err(script::Unreadable) => text += &not_a_line(number),
        }
    }
    text.into_bytes()
}

pub fn refused(number: u8) -> String {
    format!("refused {number}\n")
}
