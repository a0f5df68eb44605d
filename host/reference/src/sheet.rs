//! The record sheet, edition 1 (RULES S1 to S5, T5).

use crate::carrier::Carrier;
use crate::names::Name;
use crate::numbers::{
    INPUT_TOO_LONG, NO_SHEET, SHEET_CARRIER, SHEET_SHAPE, SHEET_VERSION, TOO_MANY_RECORDS,
};
use crate::octets::{take, take_u16, take_u32, take_u8, Pen};
use crate::record::{Full, Record};
use crate::{MAX_INPUT, MAX_RECORDS};

const LETTERS: &[u8; 3] = b"RSV";
const VERSION: u16 = 1;
/// Octets of the header: letters 3, version 2, carrier 1, record count 1.
pub const HEADER: usize = 7;
/// Octets of a record before its name: priority 2, lifetime 4, mode 1, name
/// length 1.
pub const RECORD_HEAD: usize = 8;

/// A sheet whose form is tested.
#[derive(Clone, Copy)]
pub struct Sheet<'a> {
    pub carrier: Carrier,
    count: usize,
    /// The octets after the header.
    octets: &'a [u8],
}

impl<'a> Sheet<'a> {
    /// Takes a sheet as far as its form goes: 2, 40, 41, 42, 4, 43. Its
    /// records may still have the faults 21 to 28.
    pub fn take(sheet: &'a [u8]) -> Result<Self, u8> {
        if sheet.len() > MAX_INPUT {
            return Err(INPUT_TOO_LONG);
        }
        let Some((header, octets)) = sheet.split_first_chunk::<HEADER>() else {
            return Err(NO_SHEET);
        };
        let [letters @ .., version_high, version_low, carrier, count] = header;
        if letters != LETTERS {
            return Err(NO_SHEET);
        }
        if u16::from_be_bytes([*version_high, *version_low]) != VERSION {
            return Err(SHEET_VERSION);
        }
        let carrier = Carrier::from_number(*carrier).ok_or(SHEET_CARRIER)?;
        let count = usize::from(*count);
        if count > MAX_RECORDS {
            return Err(TOO_MANY_RECORDS);
        }
        let mut rest = octets;
        let mut before = 0;
        for _ in 0..count {
            let record = take_record(carrier, &mut rest).ok_or(SHEET_SHAPE)?;
            // Priorities fall.
            if record.priority < before {
                return Err(SHEET_SHAPE);
            }
            before = record.priority;
        }
        // Nothing follows the last record.
        if !rest.is_empty() {
            return Err(SHEET_SHAPE);
        }
        Ok(Sheet {
            carrier,
            count,
            octets,
        })
    }

    /// Where a record starts in the sheet, the header counted.
    pub fn start_of(self, index: usize) -> usize {
        let mut rest = self.octets;
        for _ in 0..index {
            take_record(self.carrier, &mut rest);
        }
        HEADER + self.octets.len() - rest.len()
    }

    /// The records, in the sheet's order.
    pub fn records(self) -> impl Iterator<Item = Record<'a>> {
        let mut rest = self.octets;
        (0..self.count).map_while(move |_| take_record(self.carrier, &mut rest))
    }
}

/// One record, in wire form for all carriers; none where it does not tile, its
/// mode is not 0 or 1, or it has a lifetime where none belongs.
fn take_record<'a>(carrier: Carrier, rest: &mut &'a [u8]) -> Option<Record<'a>> {
    let priority = take_u16(rest)?;
    let lifetime = take_u32(rest)?;
    let mode = take_u8(rest)?;
    let name_length = take_u8(rest)?;
    let name = take(rest, usize::from(name_length))?;
    let full = match mode {
        0 => None,
        1 => {
            let address_count = take_u8(rest)?;
            let addresses = take(rest, usize::from(address_count) * carrier.width())?;
            let params_length = take_u16(rest)?;
            let params = take(rest, usize::from(params_length))?;
            Some(Full { addresses, params })
        }
        _ => return None,
    };
    if lifetime != 0 && !carrier.has_lifetime() {
        return None;
    }
    Some(Record {
        priority,
        lifetime,
        name: Name::Wire(name),
        full,
    })
}

pub fn put_header(pen: &mut Pen, carrier: Carrier, count: usize) {
    pen.put(LETTERS);
    pen.put_u16(VERSION);
    pen.put_u8(carrier.number());
    pen.put_u8(count as u8);
}

/// Priority, lifetime, mode, name length and name.
pub fn put_record_head(pen: &mut Pen, record: &Record) {
    let name_length = record.name.wire_length();
    pen.put_u16(record.priority);
    pen.put_u32(record.lifetime);
    pen.put_u8(u8::from(record.full.is_some()));
    pen.put_u8(name_length as u8);
    record.name.put_wire(pen.space(name_length));
}
