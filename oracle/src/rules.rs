//! What document 01 decides before the Rust is called: its table of numbers, for the
//! checks that the Rust doesn't make.

use crate::script::{Begin, Open, Request};

const PACKET_MEMORY: usize = 4096;
const LEAST_LOG: usize = 192;
const HIGHEST_ADDRESS: u8 = 127;
const LARGEST_PACKET: u16 = 64;
const LONGEST_BULK: usize = 65_535;

pub const UNDER_WAY: u8 = 8;
pub const NO_SUCH_ENDPOINT: u8 = 11;
pub const ADDRESS: u8 = 12;
pub const PACKET_SIZE: u8 = 13;
pub const BULK_LENGTH: u8 = 14;
pub const LENT: u8 = 15;
pub const NOTHING_TO_SERVE: u8 = 16;
pub const NO_SUCH_PIPE: u8 = 17;
/// Document 02, R-9.
pub const NO_SUCH_CALLER: u8 = 32;
pub const ALREADY_WAITS: u8 = 33;
///
pub const ABOVE_SHARE: u8 = 34;

/// The lengths lent to a call: 15, "every call with lent memory". Packet memory is lent
/// to begin, step and poll; the log to these and to open, interrupt routine and
/// detection.
#[derive(Clone, Copy)]
pub struct Lent {
    pub packet_memory: usize,
    pub log: usize,
}

impl Lent {
    pub fn whole() -> Self {
        Self {
            packet_memory: PACKET_MEMORY,
            log: LEAST_LOG,
        }
    }

    pub fn both(self) -> Result<(), u8> {
        check(self.packet_memory == PACKET_MEMORY, LENT)?;
        self.log()
    }

    pub fn log(self) -> Result<(), u8> {
        check(self.log >= LEAST_LOG, LENT)
    }
}

/// The row "begin"; 8 stands in for the Rust's wait for the control pipe.
pub fn begin(under_way: bool, begin: &Begin) -> Result<(), u8> {
    check(!under_way, UNDER_WAY)?;
    request(&begin.request, begin.buffer.len())
}

/// The same row, but for 8: of the fields and the buffer's length.
pub fn request(request: &Request, length: usize) -> Result<(), u8> {
    match *request {
        Request::Control { address, size, .. } => {
            check(address <= HIGHEST_ADDRESS, ADDRESS)?;
            packet_size(size.into())
        }
        Request::Bulk {
            address,
            endpoint,
            size,
            ..
        } => {
            fields(address, endpoint, size)?;
            check(length <= LONGEST_BULK, BULK_LENGTH)
        }
    }
}

/// The row "open pipe", but for 10, which is the Rust's.
pub fn open(open: &Open) -> Result<(), u8> {
    fields(open.address, open.endpoint, open.size)
}

fn fields(address: u8, endpoint: u8, size: u16) -> Result<(), u8> {
    check(address <= HIGHEST_ADDRESS, ADDRESS)?;
    check((1..=15).contains(&endpoint), NO_SUCH_ENDPOINT)?;
    packet_size(size)
}

fn packet_size(size: u16) -> Result<(), u8> {
    check((1..=LARGEST_PACKET).contains(&size), PACKET_SIZE)
}

pub fn check(holds: bool, number: u8) -> Result<(), u8> {
    if holds {
        Ok(())
    } else {
        Err(number)
    }
}

#[cfg(test)]
mod tests {
    use super::*;
    use crate::script::Way;

    fn bulk(address: u8, endpoint: u8, size: u16, length: usize) -> Begin {
        Begin {
            request: Request::Bulk {
                address,
                endpoint,
                size,
                variable: false,
                toggle: false,
                way: Way::In,
            },
            buffer: vec![0; length],
        }
    }

    #[test]
    fn a_begin_is_checked_in_the_order_of_the_table() {
        assert_eq!(begin(true, &bulk(128, 16, 65, 65_536)), Err(8));
        assert_eq!(begin(false, &bulk(128, 16, 65, 65_536)), Err(12));
        assert_eq!(begin(false, &bulk(127, 16, 65, 65_536)), Err(11));
        assert_eq!(begin(false, &bulk(127, 15, 65, 65_536)), Err(13));
        assert_eq!(begin(false, &bulk(127, 15, 64, 65_536)), Err(14));
        assert_eq!(begin(false, &bulk(127, 15, 64, 65_535)), Ok(()));
        assert_eq!(begin(false, &bulk(0, 0, 1, 0)), Err(11));
        assert_eq!(begin(false, &bulk(0, 1, 0, 0)), Err(13));
        assert_eq!(begin(false, &bulk(0, 1, 320, 0)), Err(13));
    }

    #[test]
    fn only_what_a_call_is_lent_is_looked_at() {
        let lent = |packet_memory, log| Lent { packet_memory, log };
        assert_eq!(Lent::whole().both(), Ok(()));
        assert_eq!(lent(4095, 192).both(), Err(15));
        assert_eq!(lent(4095, 192).log(), Ok(()));
        assert_eq!(lent(4096, 191).both(), Err(15));
        assert_eq!(lent(4096, 191).log(), Err(15));
    }
}
