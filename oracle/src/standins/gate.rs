//! One step is one poll of `Rp2040ControlEndpoint`. The listed edit asks here at the
//! top of that poll: it passes once for each permission, and else waits.

use std::cell::Cell;

thread_local! {
    static PERMITTED: Cell<bool> = const { Cell::new(false) };
    static TURNED_AWAY: Cell<bool> = const { Cell::new(false) };
}

/// The next poll passes, and only that one.
pub fn permit() {
    PERMITTED.set(true);
    TURNED_AWAY.set(false);
}

/// May this poll go on?
pub fn pass() -> bool {
    let permitted = PERMITTED.replace(false);
    if !permitted {
        TURNED_AWAY.set(true);
    }
    permitted
}

/// Whether a poll was turned away since the permission: the Rust polled again, so the
/// permitted poll was ready.
pub fn turned_away() -> bool {
    TURNED_AWAY.get()
}

#[cfg(test)]
mod tests {
    use super::*;

    #[test]
    fn passes_once_for_each_permission() {
        assert!(!pass());
        permit();
        assert!(!turned_away());
        assert!(pass());
        assert!(!turned_away());
        assert!(!pass());
        assert!(turned_away());
        permit();
        assert!(!turned_away());
    }
}
