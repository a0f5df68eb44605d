//! A block's fields (RULES B1 to B8). Here a block can have the faults 20 and
//! 29; its contents are judged elsewhere.

use crate::carrier::Carrier;
use crate::names::Name;
use crate::numbers::{FIELD, PADDING};
use crate::octets::{take, take_u16, take_u32, take_u8};
use crate::record::{Full, Record};

/// The record of a block of carriers 2 to 5, or of one instance of carrier 1,
/// from the octets after its header and nothing around them.
pub fn record(carrier: Carrier, data: &[u8]) -> Result<Record<'_>, u8> {
    match carrier {
        Carrier::Dhcp4 => dhcp4(data).ok_or(FIELD),
        Carrier::Dhcp6 => dhcp6(data).ok_or(FIELD),
        Carrier::Router => router(data),
        Carrier::Ike4 | Carrier::Ike6 => ike(data, carrier.width()).ok_or(FIELD),
    }
}

/// The octets before the name: of a block from its header on, of an instance
/// from its length on. In carriers 4 and 5 the addresses are among them.
pub fn octets_before_name(carrier: Carrier, record: &Record) -> usize {
    match carrier {
        // Instance length 2, priority 2, ADN length 1.
        Carrier::Dhcp4 => 5,
        // Code 2, length 2, priority 2, ADN length 2.
        Carrier::Dhcp6 => 8,
        // Type 1, length 1, priority 2, lifetime 4, ADN length 2.
        Carrier::Router => 10,
        // Type 2, length 2, priority 2, number of addresses 1, ADN length 1.
        Carrier::Ike4 | Carrier::Ike6 => 8 + record.full.map_or(0, |full| full.addresses.len()),
    }
}

/// Carrier 1: one instance off the joined data, which instances tile
/// (RULES B4). None where it runs past the end.
pub fn take_instance<'a>(joined: &mut &'a [u8]) -> Option<&'a [u8]> {
    let length = take_u16(joined)?;
    take(joined, usize::from(length))
}

/// RFC 9463 §5.1. Name only when nothing follows the name, that is when
/// L = ADN length + 3; else the parameters are what is left of L.
fn dhcp4(instance: &[u8]) -> Option<Record<'_>> {
    let mut rest = instance;
    let priority = take_u16(&mut rest)?;
    let name_length = take_u8(&mut rest)?;
    let name = take(&mut rest, usize::from(name_length))?;
    let full = if rest.is_empty() {
        None
    } else {
        let address_length = take_u8(&mut rest)?;
        let addresses = take(&mut rest, usize::from(address_length))?;
        Some(Full {
            addresses,
            params: rest,
        })
    };
    Some(Record {
        priority,
        lifetime: 0,
        name: Name::Wire(name),
        full,
    })
}

/// RFC 9463 §4.1. Name only when nothing follows the name; a single
/// octet behind it is an address length past the end (RULES B5).
fn dhcp6(data: &[u8]) -> Option<Record<'_>> {
    let mut rest = data;
    let priority = take_u16(&mut rest)?;
    let name_length = take_u16(&mut rest)?;
    let name = take(&mut rest, usize::from(name_length))?;
    let full = if rest.is_empty() {
        None
    } else {
        let address_length = take_u16(&mut rest)?;
        let addresses = take(&mut rest, usize::from(address_length))?;
        Some(Full {
            addresses,
            params: rest,
        })
    };
    Some(Record {
        priority,
        lifetime: 0,
        name: Name::Wire(name),
        full,
    })
}

/// RFC 9463 §6.1. All fields are tested for 20 before the padding is
/// for 29 (RULES T2).
fn router(data: &[u8]) -> Result<Record<'_>, u8> {
    let (record, padding) = router_fields(data).ok_or(FIELD)?;
    if padding.len() > 7 || padding.iter().any(|octet| *octet != 0) {
        return Err(PADDING);
    }
    Ok(record)
}

/// The record and what is left behind its last field. Fewer than 8 octets
/// after the name are padding whatever they hold, 8 or more are the full form
/// (RULES B5, B6).
fn router_fields(data: &[u8]) -> Option<(Record<'_>, &[u8])> {
    let mut rest = data;
    let priority = take_u16(&mut rest)?;
    let lifetime = take_u32(&mut rest)?;
    let name_length = take_u16(&mut rest)?;
    let name = take(&mut rest, usize::from(name_length))?;
    let full = if rest.len() < 8 {
        None
    } else {
        let address_length = take_u16(&mut rest)?;
        let addresses = take(&mut rest, usize::from(address_length))?;
        let params_length = take_u16(&mut rest)?;
        let params = take(&mut rest, usize::from(params_length))?;
        Some(Full { addresses, params })
    };
    let record = Record {
        priority,
        lifetime,
        name: Name::Wire(name),
        full,
    };
    Some((record, rest))
}

/// RFC 9464 §3.1, Figure 1: the addresses stand before the name, and
/// the parameters are the rest (RULES B1).
fn ike(data: &[u8], width: usize) -> Option<Record<'_>> {
    let mut rest = data;
    let priority = take_u16(&mut rest)?;
    let address_count = take_u8(&mut rest)?;
    let name_length = take_u8(&mut rest)?;
    let addresses = take(&mut rest, usize::from(address_count) * width)?;
    let name = take(&mut rest, usize::from(name_length))?;
    Some(Record {
        priority,
        lifetime: 0,
        name: Name::Text(name),
        full: Some(Full {
            addresses,
            params: rest,
        }),
    })
}
