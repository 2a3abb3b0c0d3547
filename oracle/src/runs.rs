//! Where two states of the same bytes differ.

/// A run of bytes whose value changed, with its new values.
#[derive(Debug, PartialEq, Eq)]
pub struct Run {
    pub offset: usize,
    pub bytes: Vec<u8>,
}

/// The maximal runs.
pub fn changed(before: &[u8], after: &[u8]) -> Vec<Run> {
    let mut runs: Vec<Run> = Vec::new();
    if before == after {
        return runs;
    }
    for (offset, (old, new)) in before.iter().zip(after).enumerate() {
        if old == new {
            continue;
        }
        match runs.last_mut() {
            Some(run) if run.offset + run.bytes.len() == offset => run.bytes.push(*new),
            _ => runs.push(Run {
                offset,
                bytes: vec![*new],
            }),
        }
    }
    runs
}

#[cfg(test)]
mod tests {
    use super::*;

    #[test]
    fn runs_are_maximal() {
        assert_eq!(changed(&[1, 2, 3], &[1, 2, 3]), []);
        assert_eq!(
            changed(&[0, 0, 0, 0], &[1, 2, 0, 3]),
            [
                Run {
                    offset: 0,
                    bytes: vec![1, 2]
                },
                Run {
                    offset: 3,
                    bytes: vec![3]
                }
            ]
        );
    }
}
