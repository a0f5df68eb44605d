//! Resolvers that differ in their parameters alone, in the octets of every carrier and as a sheet, laid out by hand; and that the proved library and
//! the reference answer as is stated of them.

use crate::{Reading, Written, SIDES};
use std::ops::RangeInclusive;

const MARK: u8 = 0x96;

/// The name a.b in wire form, and an address of each width.
const NAME: &[u8] = b"\x01a\x01b\x00";
const V4: &[u8] = &[192, 0, 2, 9];
const V6: &[u8] = &[0x20, 1, 0xd, 0xb8, 0, 0, 0, 0, 0, 0, 0, 0, 0, 0, 0, 9];

/// A parameter's octets.
pub fn parameter(key: u16, value: &[u8]) -> Vec<u8> {
    [&key.to_be_bytes()[..], &(value.len() as u16).to_be_bytes(), value].concat()
}

/// A value that its key takes: alpn "dot", the port 853, else none.
pub fn good_value(key: u16) -> Vec<u8> {
    match key {
        1 => b"\x03dot".to_vec(),
        3 => vec![3, 85],
        _ => vec![],
    }
}

fn address(carrier: u8) -> &'static [u8] {
    if carrier == 1 || carrier == 4 { V4 } else { V6 }
}

/// The body of a resolver of priority 1, with the name a.b, one address and these parameters (RULES B1).
fn body(carrier: u8, parameters: &[u8]) -> Vec<u8> {
    let address = address(carrier);
    let length = (parameters.len() as u16).to_be_bytes();
    match carrier {
        1 => [&[0, 1, 5][..], NAME, &[4], address, parameters].concat(),
        2 => [&[0, 1, 0, 5][..], NAME, &[0, 16], address, parameters].concat(),
        3 => [&[0, 1, 0, 0, 0, 7, 0, 5][..], NAME, &[0, 16], address, &length, parameters].concat(),
        _ => [&[0, 1, 1, 3][..], address, b"a.b", parameters].concat(),
    }
}

/// Its option, in carrier 1 its instance.
fn block(carrier: u8, parameters: &[u8]) -> Vec<u8> {
    let body = body(carrier, parameters);
    let length = (body.len() as u16).to_be_bytes();
    let eights = (body.len() + 2).div_ceil(8);
    match carrier {
        1 => [&length[..], &body].concat(),
        2 => [&[0, 144][..], &length, &body].concat(),
        3 => [&[144, eights as u8][..], &body, &vec![0; 8 * eights - 2 - body.len()]].concat(),
        _ => [&[0, 23 + carrier][..], &length, &body].concat(),
    }
}

/// The octets of resolvers with these parameters, as they are written (RULES E2, E3).
fn area(carrier: u8, fields: &[&[u8]]) -> Vec<u8> {
    let blocks: Vec<u8> = fields.iter().flat_map(|parameters| block(carrier, parameters)).collect();
    match carrier {
        1 => blocks.chunks(255).flat_map(|data| [&[162, data.len() as u8][..], data].concat()).collect(),
        _ => blocks,
    }
}

/// The sheet of the same (RULES S1, S2).
fn sheet(carrier: u8, fields: &[&[u8]]) -> Vec<u8> {
    let lifetime = if carrier == 3 { 7 } else { 0 };
    let record = |parameters: &&[u8]| {
        let length = (parameters.len() as u16).to_be_bytes();
        [&[0, 1, 0, 0, 0, lifetime, 1, 5][..], NAME, &[1], address(carrier), &length, parameters].concat()
    };
    let records: Vec<u8> = fields.iter().flat_map(record).collect();
    [b"RSV\x00\x01", &[carrier, fields.len() as u8][..], &records].concat()
}

/// Whether a buffer begins with these octets and is as it was past them.
fn holds(buffer: &[u8], octets: &[u8]) -> bool {
    buffer.starts_with(octets) && buffer[octets.len()..].iter().all(|&octet| octet == MARK)
}

/// Asserts what both implementations answer for resolvers with these parameters, each beside the fault that it has, in each of the carriers. Those
/// without a fault are read, the others discarded (RULES W9); in carrier 1 all are one block. The sheet of all is written, or refused with the first
/// fault (RULES T5, T6). Nothing past the result is changed.
pub fn agree(carriers: RangeInclusive<u8>, fields: &[(Vec<u8>, usize)]) {
    let all: Vec<&[u8]> = fields.iter().map(|(parameters, _)| &parameters[..]).collect();
    let kept: Vec<&[u8]> = fields.iter().filter(|(_, fault)| *fault == 0).map(|(parameters, _)| &parameters[..]).collect();
    let fault = fields.iter().map(|(_, fault)| *fault).find(|&fault| fault != 0).unwrap_or(0);
    for carrier in carriers {
        let (found, discarded, left) = match carrier {
            1 if fault != 0 => (1, 1, &[][..]),
            1 => (1, 0, &kept[..]),
            _ => (all.len(), all.len() - kept.len(), &kept[..]),
        };
        let (area, whole, left) = (area(carrier, &all), sheet(carrier, &all), sheet(carrier, left));
        let written = if fault == 0 { &area[..] } else { &[] };
        let reading = Reading { number: 0, length: left.len(), found, discarded, fault, place: 0 };
        let writing = Written { number: fault, length: written.len(), place: 0 };
        for (side, read, write) in SIDES {
            let mut buffer = vec![MARK; whole.len() + 3];
            assert_eq!(read(carrier, &area, &mut buffer), reading, "{side}, carrier {carrier}, parameters {all:02x?}");
            assert!(holds(&buffer, &left), "{side}, carrier {carrier}, the sheet of parameters {all:02x?}");
            let mut buffer = vec![MARK; area.len() + 3];
            assert_eq!(write(&whole, &mut buffer), writing, "{side}, carrier {carrier}, parameters {all:02x?}");
            assert!(holds(&buffer, written), "{side}, carrier {carrier}, the octets of parameters {all:02x?}");
        }
    }
}
