//! The edits made to the Rust before it is compiled. docs/ORACLE.md lists them too.

pub struct Edit {
    pub file: &'static str,
    pub old: &'static str,
    pub new: &'static str,
    /// How often `old` must occur.
    pub times: usize,
    pub reason: &'static str,
}

const RP2040: &str = "host/rp2040.rs";

pub const EDITS: &[Edit] = &[
    Edit {
        file: RP2040,
        old: "        //defmt::trace!(\"CE register\");\n",
        new: "        if !gate::pass() {\n            return Poll::Pending;\n        }\n",
        times: 1,
        reason: "one step is one poll of Rp2040ControlEndpoint: any further poll waits",
    },
    Edit {
        file: RP2040,
        old: "(0x5010_0200 + (which as u32) * 128) as *const u8",
        new: "dpram_address(0x5010_0200 + (which as u32) * 128) as *const u8",
        times: 1,
        reason: "raw address of an interrupt pipe's buffer",
    },
    Edit {
        file: RP2040,
        old: "(0x5010_0000 + 0x180) as *mut u8",
        new: "dpram_address(0x5010_0000 + 0x180) as *mut u8",
        times: 1,
        reason: "raw address of slot 0, OUT",
    },
    // The address behind it makes this the copy into slot 1.
    Edit {
        file: RP2040,
        old: "&self.buf[self.offset] as *const u8,\n                                (0x5010_0000 + 0x1C0)",
        new: "self.buf[self.offset..].as_ptr(),\n                                (0x5010_0000 + 0x1C0)",
        times: 1,
        reason: "document 01, cutting: the empty packet in slot 1 is sent, where the \
                 Rust panics if the buffer is exactly n long",
    },
    Edit {
        file: RP2040,
        old: "(0x5010_0000 + 0x1C0) as *mut u8",
        new: "dpram_address(0x5010_0000 + 0x1C0) as *mut u8",
        times: 1,
        reason: "raw address of slot 1, OUT",
    },
    Edit {
        file: RP2040,
        old: "(0x5010_0000 + 0x180) as *const u8",
        new: "dpram_address(0x5010_0000 + 0x180) as *const u8",
        times: 1,
        reason: "raw address of slot 0, IN",
    },
    Edit {
        file: RP2040,
        old: "(0x5010_0000 + 0x1C0) as *const u8",
        new: "dpram_address(0x5010_0000 + 0x1C0) as *const u8",
        times: 1,
        reason: "raw address of slot 1, IN",
    },
    Edit {
        file: RP2040,
        old: "for i in 0..15 {",
        new: "for i in 0..16 {",
        times: 1,
        reason: "document 02, R-2: the interrupt routine looks at pipes 0 to 15",
    },
    Edit {
        file: RP2040,
        old: "(intr.bits() & 0x458) != 0",
        new: "(intr.bits() & 0x7F8) != 0",
        times: 1,
        reason: "document 02, R-4: a poll is ready when INTR and 0x7F8 is not zero",
    },
    Edit {
        file: RP2040,
        old: "(ints.bits() & 0x458) != 0",
        new: "(ints.bits() & 0x7F8) != 0",
        times: 1,
        reason: "document 02, R-4: the interrupt routine wakes pipe 0 by the same mask",
    },
    // No other place of the file sets these three bits in this order.
    Edit {
        file: RP2040,
        old: "                w.stall()\n                    .set_bit()\n                    .error_rx_timeout()\n                    .set_bit()\n                    .trans_complete()\n                    .set_bit()\n",
        new: "                w.stall()\n                    .set_bit()\n                    .error_rx_timeout()\n                    .set_bit()\n                    .trans_complete()\n                    .set_bit()\n                    .error_data_seq()\n                    .set_bit()\n                    .error_rx_overflow()\n                    .set_bit()\n                    .error_bit_stuff()\n                    .set_bit()\n                    .error_crc()\n                    .set_bit()\n",
        times: 1,
        reason: "document 02, R-4: waiting enables trans complete and all six error interrupts",
    },
];
