//! The lines of the callers' script for the transfer of a begin's line, and its shares.

use crate::script::{self, Shares, TransferKind};

/// The line by which it comes.
pub fn coming(caller: u64, begin: &str) -> String {
    match parts(begin) {
        ("control-out" | "bulk-out", fields, buffer) => {
            let length = script::bytes(buffer).map_or(0, |bytes| bytes.len());
            format!("come {caller} {fields} {length}")
        }
        _ => format!("come {caller} {begin}"),
    }
}

/// The line that starts it.
pub fn start(begin: &str) -> String {
    match parts(begin) {
        ("control-in", _, length) => {
            start_of(TransferKind::Control, &format!("seq:{length}:0:0"))
        }
        ("control-out", _, bytes) => start_of(TransferKind::Control, bytes),
        ("bulk-in", _, length) => start_of(TransferKind::BulkIn, length),
        ("bulk-out", _, bytes) => start_of(TransferKind::BulkOut, bytes),
        _ => start_of(TransferKind::Control, "-"),
    }
}

/// A start of this kind; the buffer is BYTES, for a bulk IN its length.
pub fn start_of(kind: TransferKind, buffer: &str) -> String {
    match kind {
        TransferKind::Control => format!("start-control {buffer}"),
        TransferKind::BulkIn => format!("start-bulk-in {buffer}"),
        TransferKind::BulkOut => format!("start-bulk-out {buffer}"),
    }
}

/// The line that gives callers 0 to 7 their shares.
pub fn shares(shares: Shares) -> String {
    let shares = shares.map(|share| share.to_string());
    format!("shares {}", shares.join(" "))
}

/// The first word, all words but the last, and the last.
fn parts(begin: &str) -> (&str, &str, &str) {
    let (fields, buffer) = begin.rsplit_once(' ').expect("a begin has fields");
    let (name, _) = begin.split_once(' ').expect("the same");
    (name, fields, buffer)
}

#[cfg(test)]
mod tests {
    use super::*;

    #[test]
    fn a_begin_becomes_a_coming_and_a_start() {
        for (begin, comes, starts) in [
            (
                "control-in 1 0 8 8006000100000200 2",
                "come 3 control-in 1 0 8 8006000100000200 2",
                "start-control seq:2:0:0",
            ),
            (
                "control-out 1 0 8 2109000000000200 0102",
                "come 3 control-out 1 0 8 2109000000000200 2",
                "start-control 0102",
            ),
            (
                "control-none 1 0 8 0009010000000000",
                "come 3 control-none 1 0 8 0009010000000000",
                "start-control -",
            ),
            (
                "bulk-in 1 1 8 fixed 0 2",
                "come 3 bulk-in 1 1 8 fixed 0 2",
                "start-bulk-in 2",
            ),
            (
                "bulk-out 1 1 8 fixed 0 seq:9:1:1",
                "come 3 bulk-out 1 1 8 fixed 0 9",
                "start-bulk-out seq:9:1:1",
            ),
        ] {
            assert_eq!(coming(3, begin), comes);
            assert_eq!(start(begin), starts);
        }
    }
}
