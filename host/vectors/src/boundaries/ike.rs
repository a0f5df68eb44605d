//! Carriers 4 and 5: the reserved bit, the other family's attribute, and
//! attributes without addresses or data (RULES W7, W8,
//! B1).

use super::layout::{address, hex, name_at, option, sheet, Resolver, A4, N, P};
use super::pieces::{k5, k5_sheet};
use super::table::{bad_name, fault, Done, Fault, Table, ROOM};

/// What a carrier reads and what it skips.
struct Family {
    carrier: u8,
    own: Vec<u8>,
    /// The attribute of the other carrier.
    other: Vec<u8>,
    /// The sheet of the own attribute.
    whole: Vec<u8>,
}

/// The like of K5 for carrier 4: an attribute with N, 192.0.2.1 and P.
fn k5_of_carrier_4() -> Vec<u8> {
    [&hex("00 1b 00 20 00 01 01 10"), A4, b"doh1.example.com", P].concat()
}

/// Its sheet.
fn sheet_of_carrier_4() -> Vec<u8> {
    let head = hex("52 53 56 00 01 04 01 00 01 00 00 00 00 01 12");
    [&head, N, &[1], A4, &hex("00 08"), P].concat()
}

/// Both carriers.
fn families() -> [Family; 2] {
    [
        Family {
            carrier: 4,
            own: k5_of_carrier_4(),
            other: k5(),
            whole: sheet_of_carrier_4(),
        },
        Family {
            carrier: 5,
            own: k5(),
            other: k5_of_carrier_4(),
            whole: k5_sheet(),
        },
    ]
}

/// An attribute with its reserved bit set.
fn reserved(mut attribute: Vec<u8>) -> Vec<u8> {
    attribute[0] |= 0x80;
    attribute
}

/// The reserved bit is ignored when read, in own and in foreign attributes
/// (RFC 7296; RFC 9464 §3.1).
fn add_reserved(table: &mut Table, family: &Family) {
    let carrier = family.carrier;
    let source = format!("RULES W7, reserved bit set in carrier {carrier}");
    let done = Done::kept(1, &family.whole);
    let set = reserved(family.own.clone());
    let foreign = reserved(hex("00 19 00 02 00 1b"));
    let other = reserved(family.other.clone());
    table.read_in_rooms(&source, carrier, &set, &done);
    for (what, parts) in [
        ("only of a foreign one", [&foreign, &family.own]),
        ("only of the other family", [&other, &family.own]),
        ("of the other family too", [&other, &set]),
        ("of a foreign one too", [&set, &foreign]),
    ] {
        let octets = parts.map(Vec::as_slice).concat();
        table.read(format!("{source}, {what}"), carrier, ROOM, &octets, &done);
    }
    let mut alias = set;
    alias[5] = 0;
    table.discarded(format!("{source}, priority 0"), carrier, &alias, 21);
}

/// The other family's attribute is foreign (RULES W7), and so are types that
/// differ from the own one in one of their 15 bits.
fn add_types(table: &mut Table, family: &Family) {
    let carrier = family.carrier;
    let none = Done::kept(0, &sheet(carrier, &[]));
    let source = format!("RULES W8, only the other family's in carrier {carrier}");
    for octets in [family.other.clone(), reserved(family.other.clone())] {
        table.read(source.clone(), carrier, ROOM, &octets, &none);
    }
    for bit in 0..15 {
        let mut octets = family.own.clone();
        octets[1 - bit / 8] ^= 1 << (bit % 8);
        let source = format!("RULES W7, 15-bit type, bit {bit} in carrier {carrier}");
        table.read(source, carrier, ROOM, &octets, &none);
    }
}

/// Attributes without data (RULES W7), without addresses (RULES R23), without
/// a name (RULES R22), and with fields past their end (RULES R20). The head is
/// priority, number of addresses and ADN length.
fn add_fields(table: &mut Table, carrier: u8) {
    let address = address(carrier, 1);
    let text = b"doh1.example.com";
    let (short, no_address) = (fault(20), fault(23));
    // An empty name, and one at fault in its first octet.
    let [alone, behind] = [0, 1].map(|count| bad_name(name_at(carrier, count)));
    let rows: [(&str, &str, &[&[u8]], Fault); 12] = [
        ("no data", "", &[], short),
        ("one octet", "00", &[], short),
        ("only a priority", "00 01", &[], short),
        ("no ADN length", "00 01 01", &[], short),
        ("no addresses", "00 01 00 10", &[text, P], no_address),
        ("only a name", "00 01 00 10", &[text], no_address),
        ("no name", "00 01 01 00", &[&address, P], behind),
        ("neither", "00 01 00 00", &[P], alone),
        ("a name past it", "00 01 01 11", &[&address, text], short),
        ("addresses past it", "00 01 ff 10", &[&address, text], short),
        // The name stands behind the addresses (Figure 1 of RFC 9464). Where it
        // should begin there is a dot in carrier 4, in carrier 5 the octet 20.
        ("a name first", "00 01 01 10", &[text, &address, P], behind),
        // The text's last letter and P are then a key with a length of 256.
        (
            "a short ADN",
            "00 01 01 0f",
            &[&address, text, P],
            fault(26),
        ),
    ];
    for (what, head, fields, fault) in rows {
        let source = format!("RULES B1, carrier {carrier}, {what}");
        let octets = option(carrier, &[hex(head), fields.concat()].concat());
        table.discarded(source.clone(), carrier, &octets, fault);
        let source = source + ", reserved bit set";
        table.discarded(source, carrier, &reserved(octets), fault);
    }
}

/// Framing: four zeros are a foreign attribute, and fewer are 3 (RULES R3).
/// The same attribute twice is two records (RULES W8).
fn add_framing(table: &mut Table, family: &Family) {
    let carrier = family.carrier;
    for zeros in 1..4 {
        let source = format!("RULES R3, {zeros} zeros in carrier {carrier}");
        let octets = [family.own.clone(), vec![0; zeros]].concat();
        table.read_refused(source, carrier, ROOM, &octets, 3);
    }
    let source = format!("RULES W8, four zeros in carrier {carrier}");
    let octets = [&family.own[..], &[0; 4]].concat();
    let done = Done::kept(1, &family.whole);
    table.read(source, carrier, ROOM, &octets, &done);
    let source = format!("RULES W8, the same attribute twice in carrier {carrier}");
    let resolver = Resolver::full(1, N, &address(carrier, 1), P);
    table.goes_round(source, carrier, &[resolver.clone(), resolver]);
}

/// The like of K5 in carrier 4, whose reserved bit is written as 0, and all of
/// the above.
pub fn add(table: &mut Table) {
    let source = "RULES B1, the like of K5 in carrier 4";
    let done = Done::kept(1, &sheet_of_carrier_4());
    table.read_in_rooms(source, 4, &k5_of_carrier_4(), &done);
    table.write_in_rooms(source, &sheet_of_carrier_4(), &k5_of_carrier_4());
    for family in families() {
        add_reserved(table, &family);
        add_types(table, &family);
        add_fields(table, family.carrier);
        add_framing(table, &family);
    }
}
