//! The walk of a configuration descriptor (document 02, R-1), as `descriptorcases` prints
//! it. Positions, end and refusals are the document's; the descriptor that stands at a
//! position is told by the Rust's `parse_descriptors`, which has to report it.

use crate::cases::{self, refused, LONGEST};
use crate::wire::{
    parse_descriptors, ConfigurationDescriptor, DescriptorVisitor, EndpointDescriptor,
    InterfaceDescriptor, CONFIGURATION_DESCRIPTOR, ENDPOINT_DESCRIPTOR,
    INTERFACE_DESCRIPTOR,
};
use std::collections::BTreeMap;

/// Lists the walk of each line's bytes.
pub fn print(lines: &[u8]) -> Vec<u8> {
    cases::print(lines, listing)
}

/// The walk of the bytes.
pub fn listing(bytes: &[u8]) -> String {
    if bytes.len() > LONGEST {
        return refused(21);
    }
    match configuration(bytes) {
        Ok(configuration) => walked(configuration),
        Err(number) => refused(number),
    }
}

/// The bytes of the configuration, or the number.
fn configuration(bytes: &[u8]) -> Result<&[u8], u8> {
    if bytes.len() < 9 || bytes[1] != CONFIGURATION_DESCRIPTOR {
        return Err(24);
    }
    match u16::from_le_bytes([bytes[2], bytes[3]]) {
        0..9 => Err(23),
        total => bytes.get(..total.into()).ok_or(23),
    }
}

fn walked(configuration: &[u8]) -> String {
    let mut reports = reports(configuration);
    let mut text = String::new();
    let (mut at, mut count) = (0, 0);
    loop {
        match next(&configuration[at..]) {
            Ok(Some(descriptor)) => {
                let line = reports.remove(&at);
                let is_last = at + descriptor.len() == configuration.len();
                let is_reported = !is_left_out(descriptor, is_last);
                assert_eq!(line.is_some(), is_reported, "{configuration:02x?}");
                text += &line.unwrap_or_else(|| plain(at, descriptor));
                text += "\n";
                at += descriptor.len();
                count += 1;
            }
            Ok(None) => {
                assert!(reports.is_empty(), "{configuration:02x?}");
                return text + &format!("end {count}\n");
            }
            Err((number, goes_on)) => {
                assert!(reports.is_empty() || goes_on, "{configuration:02x?}");
                return text + &refused(number);
            }
        }
    }
}

/// The descriptor that the rest of a configuration begins with, nothing at the end, or
/// the number and whether the Rust goes on there.
fn next(rest: &[u8]) -> Result<Option<&[u8]>, (u8, bool)> {
    match rest {
        [] => Ok(None),
        [0 | 1, ..] => Err((22, false)),
        [length, ..] if usize::from(*length) > rest.len() => Err((23, false)),
        [length, ENDPOINT_DESCRIPTOR, ..] if *length < 7 => Err((22, true)),
        [length, ..] => Ok(Some(&rest[..usize::from(*length)])),
    }
}

/// Whether the Rust doesn't report a descriptor that is there: docs/DIFFERENCES.md.
fn is_left_out(descriptor: &[u8], is_last: bool) -> bool {
    match descriptor {
        [_, CONFIGURATION_DESCRIPTOR | INTERFACE_DESCRIPTOR, ..] => descriptor.len() < 9,
        [_, _] => is_last,
        _ => false,
    }
}

/// The lines of what the Rust reports, by position.
fn reports(configuration: &[u8]) -> BTreeMap<usize, String> {
    let mut reports = Reports {
        start: configuration.as_ptr() as usize,
        lines: BTreeMap::new(),
    };
    parse_descriptors(configuration, &mut reports);
    reports.lines
}

struct Reports {
    /// The address of the configuration's first byte.
    start: usize,
    lines: BTreeMap<usize, String>,
}

impl Reports {
    fn add<T: ?Sized>(&mut self, descriptor: &T, line: impl Fn(usize) -> String) {
        let at = std::ptr::from_ref(descriptor).cast::<u8>() as usize - self.start;
        self.lines.insert(at, line(at));
    }
}

impl DescriptorVisitor for Reports {
    fn on_configuration(&mut self, c: &ConfigurationDescriptor) {
        self.add(c, |at| format!("{at} {} configuration", c.bLength));
    }

    fn on_interface(&mut self, i: &InterfaceDescriptor) {
        self.add(i, |at| format!("{at} {} interface", i.bLength));
    }

    fn on_endpoint(&mut self, e: &EndpointDescriptor) {
        let direction = if e.bEndpointAddress & 0x80 == 0 {
            "out"
        } else {
            "in"
        };
        let transfer_type = ["control", "isochronous", "bulk", "interrupt"]
            [usize::from(e.bmAttributes & 3)];
        self.add(e, |at| {
            format!(
                "{at} {} endpoint 0x{:02x} {direction} {transfer_type} {} {}",
                e.bLength,
                e.bEndpointAddress,
                u16::from_le_bytes(e.wMaxPacketSize),
                e.bInterval
            )
        });
    }

    fn on_other(&mut self, d: &[u8]) {
        self.add(d, |at| plain(at, d));
    }
}

/// Position, length and type, by its name in USB 2.0 table 9-5.
fn plain(at: usize, descriptor: &[u8]) -> String {
    let name = match descriptor[1] {
        1 => "device",
        2 => "configuration",
        3 => "string",
        4 => "interface",
        6 => "device_qualifier",
        7 => "other_speed_configuration",
        8 => "interface_power",
        other => return format!("{at} {} 0x{other:02x}", descriptor.len()),
    };
    format!("{at} {} {name}", descriptor.len())
}

/// What the Rust alone makes of the bytes: all that it reports, then the end.
#[cfg(test)]
pub fn rust_listing(bytes: &[u8]) -> String {
    let reports = reports(bytes);
    let lines: String = reports.values().map(|line| format!("{line}\n")).collect();
    lines + &format!("end {}\n", reports.len())
}
