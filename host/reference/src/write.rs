//! Writing a record sheet as option octets (RULES E1 to E3, T5).

use crate::carrier::{Carrier, Eights};
use crate::fault::Fault;
use crate::judge::{judge, Call};
use crate::names::{put_text_of, Name};
use crate::numbers::{OPTION_TOO_LARGE, OUTPUT_TOO_SHORT};
use crate::octets::Pen;
use crate::record::Record;
use crate::sheet::{Sheet, RECORD_HEAD};

/// Octets of a carrier 3 option when rounded (RULES L6).
const MAX_ROUTER: usize = 2_040;
/// DHCPv4: the most octets of data in an option.
const OPTION_DATA: usize = 255;

/// What a writing gives back beside the octets.
#[derive(Clone, Copy, Debug, PartialEq, Eq)]
pub struct Written {
    /// 0 if done, else the refusal; then the length is zero.
    pub number: usize,
    /// Octets written.
    pub length: usize,
    /// For refusal 22 where the name goes wrong, in wire form, from the sheet's
    /// first octet; else 0 (RULES T8).
    pub place: usize,
}

/// Writes the sheet's records as options or attributes of its carrier to
/// `out`, which is unchanged past their length and, if refused, altogether.
pub fn write(sheet: &[u8], out: &mut [u8]) -> Written {
    match try_write(sheet, out) {
        Ok(length) => Written {
            number: 0,
            length,
            place: 0,
        },
        Err(refusal) => Written {
            number: usize::from(refusal.number),
            length: 0,
            place: refusal.place(),
        },
    }
}

/// Writing tests 2, 40, 41, 42, 4, 43, then 21 to 28 record by record, then 44,
/// then 5 (RULES T5).
fn try_write(sheet: &[u8], out: &mut [u8]) -> Result<usize, Fault> {
    let sheet = Sheet::take(sheet)?;
    let octets = record_octets(sheet)?;
    // Carrier 1: the octets so far are the joined ones.
    let length = match sheet.carrier {
        Carrier::Dhcp4 => octets + 2 * octets.div_ceil(OPTION_DATA),
        _ => octets,
    };
    if out.len() < length {
        return Err(OUTPUT_TOO_SHORT.into());
    }
    put_records(sheet, octets, Pen::new(&mut out[..length]));
    Ok(length)
}

/// Octets of all options or attributes, in carrier 1 of the joined data, if the
/// records have no fault and are not too large.
fn record_octets(sheet: Sheet) -> Result<usize, Fault> {
    let carrier = sheet.carrier;
    let mut octets = 0;
    let mut largest = 0;
    for (index, record) in sheet.records().enumerate() {
        judge(Call::Writing, carrier, &record)
            .map_err(|fault| fault.behind(sheet.start_of(index) + RECORD_HEAD))?;
        let length = option_length(carrier, &record);
        octets += length;
        largest = largest.max(length);
    }
    if carrier == Carrier::Router && largest > MAX_ROUTER {
        return Err(OPTION_TOO_LARGE.into());
    }
    Ok(octets)
}

fn put_records(sheet: Sheet, octets: usize, mut pen: Pen) {
    let carrier = sheet.carrier;
    match carrier {
        Carrier::Dhcp4 => {
            let mut cutter = Cutter::new(pen, octets);
            sheet
                .records()
                .for_each(|record| put_instance(&mut cutter, &record));
        }
        Carrier::Dhcp6 => sheet
            .records()
            .for_each(|record| put_dhcp6(&mut pen, &record)),
        Carrier::Router => sheet
            .records()
            .for_each(|record| put_router(&mut pen, &record)),
        Carrier::Ike4 | Carrier::Ike6 => sheet
            .records()
            .for_each(|record| put_ike(&mut pen, carrier, &record)),
    }
}

/// Octets of a record's option or attribute, in carrier 1 of its instance.
fn option_length(carrier: Carrier, record: &Record) -> usize {
    match carrier {
        Carrier::Dhcp4 => 2 + body_length(carrier, record),
        Carrier::Router => router_eights(record).in_octets(),
        Carrier::Dhcp6 | Carrier::Ike4 | Carrier::Ike6 => 4 + body_length(carrier, record),
    }
}

/// Octets of a record's fields after the option header or, in carrier 1, after
/// the instance length; in carrier 3 without padding.
fn body_length(carrier: Carrier, record: &Record) -> usize {
    let name = record.name.wire_length();
    let (name_only, full) = match carrier {
        Carrier::Dhcp4 => (3 + name, 4 + name),
        Carrier::Dhcp6 => (4 + name, 6 + name),
        Carrier::Router => (8 + name, 12 + name),
        // The text is two octets shorter than the wire form.
        Carrier::Ike4 | Carrier::Ike6 => (4 + name - 2, 4 + name - 2),
    };
    match record.full {
        None => name_only,
        Some(parts) => full + parts.addresses.len() + parts.params.len(),
    }
}

/// Carrier 3: the option's length, type and length octets included.
fn router_eights(record: &Record) -> Eights {
    Eights::rounding_up(2 + body_length(Carrier::Router, record))
}

/// The sheet's name, which is in wire form.
fn wire_name<'a>(record: &Record<'a>) -> &'a [u8] {
    let (Name::Wire(name) | Name::Text(name)) = record.name;
    name
}

/// RFC 9463 §4.1.
fn put_dhcp6(pen: &mut Pen, record: &Record) {
    let name = wire_name(record);
    pen.put_u16(Carrier::Dhcp6.code());
    pen.put_u16(body_length(Carrier::Dhcp6, record) as u16);
    pen.put_u16(record.priority);
    pen.put_u16(name.len() as u16);
    pen.put(name);
    if let Some(full) = record.full {
        pen.put_u16(full.addresses.len() as u16);
        pen.put(full.addresses);
        pen.put(full.params);
    }
}

/// RFC 9463 §6.1, with the fewest zeros behind.
fn put_router(pen: &mut Pen, record: &Record) {
    let name = wire_name(record);
    let eights = router_eights(record);
    pen.put_u8(Carrier::Router.code() as u8);
    pen.put_u8(eights.0 as u8);
    pen.put_u16(record.priority);
    pen.put_u32(record.lifetime);
    pen.put_u16(name.len() as u16);
    pen.put(name);
    if let Some(full) = record.full {
        pen.put_u16(full.addresses.len() as u16);
        pen.put(full.addresses);
        pen.put_u16(full.params.len() as u16);
        pen.put(full.params);
    }
    let octets = 2 + body_length(Carrier::Router, record);
    pen.space(eights.in_octets() - octets).fill(0);
}

/// RFC 9464 §3.1, Figure 1; the reserved bit is 0. A record of these
/// carriers is never name only.
fn put_ike(pen: &mut Pen, carrier: Carrier, record: &Record) {
    let name = wire_name(record);
    let (addresses, params) = record
        .full
        .map_or((&[][..], &[][..]), |full| (full.addresses, full.params));
    pen.put_u16(carrier.code());
    pen.put_u16(body_length(carrier, record) as u16);
    pen.put_u16(record.priority);
    pen.put_u8((addresses.len() / carrier.width()) as u8);
    pen.put_u8((name.len() - 2) as u8);
    pen.put(addresses);
    put_text_of(name, pen.space(name.len() - 2));
    pen.put(params);
}

/// RFC 9463 §5.1, one instance behind its length.
fn put_instance(cutter: &mut Cutter, record: &Record) {
    let name = wire_name(record);
    cutter.put(&(body_length(Carrier::Dhcp4, record) as u16).to_be_bytes());
    cutter.put(&record.priority.to_be_bytes());
    cutter.put(&[name.len() as u8]);
    cutter.put(name);
    if let Some(full) = record.full {
        cutter.put(&[full.addresses.len() as u8]);
        cutter.put(full.addresses);
        cutter.put(full.params);
    }
}

/// Cuts joined octets into options 162 of 255 octets each and a last one of 1
/// to 255 (RFC 3396; RULES E2).
struct Cutter<'o> {
    pen: Pen<'o>,
    /// Joined octets still to be put.
    left: usize,
    /// Octets still to be put into the option begun.
    room: usize,
}

impl<'o> Cutter<'o> {
    fn new(pen: Pen<'o>, left: usize) -> Self {
        Cutter { pen, left, room: 0 }
    }

    fn put(&mut self, octets: &[u8]) {
        let mut rest = octets;
        while !rest.is_empty() {
            if self.room == 0 {
                self.room = self.left.min(OPTION_DATA);
                self.pen.put_u8(Carrier::Dhcp4.code() as u8);
                self.pen.put_u8(self.room as u8);
            }
            let (now, later) = rest.split_at(rest.len().min(self.room));
            self.pen.put(now);
            self.room -= now.len();
            self.left -= now.len();
            rest = later;
        }
    }
}
