//! Names of the greatest and least lengths, and names that are not acceptable
//! (RULES N1 to N4).

use super::layout::{
    address, area, name_at, name_of, one, option, sheet, text, two, Resolver, FIRST_NAME, P,
};
use super::pieces::{k1, k3};
use super::table::{bad_name, fault, Fault, Table, ROOM};

/// A resolver with this name, in the smallest form of the carrier.
fn with(carrier: u8, name: &[u8]) -> [Resolver; 1] {
    [Resolver::small(carrier, 1, name)]
}

/// Wire names of 255 octets, which are texts of 253, are good in all carriers.
/// So are labels of 63 octets, names of 3 octets, and upper case, which is
/// kept.
fn add_good(table: &mut Table) {
    let upper = b"\x04DoH1\x07eXample\x03COM\0".to_vec();
    for carrier in 1..=5 {
        for (name, what) in [
            (name_of(&[63, 63, 63, 61]), "255 octets of long labels"),
            (name_of(&[1; 127]), "255 octets of short labels"),
            (name_of(&[63]), "a label of 63 octets"),
            (name_of(&[1]), "3 octets"),
            (upper.clone(), "upper case"),
            (b"\x0dxn--bcher-kva\x011\0".to_vec(), "hyphens and digits"),
        ] {
            let source = format!("RULES N1 to N4, {what}, carrier {carrier}");
            table.goes_round(source, carrier, &with(carrier, &name));
        }
    }
}

/// 256 octets in wire form are possible with the 16-bit ADN length of carriers
/// 2 and 3 (RULES N1), 254 and 255 octets of text with the 8-bit length of
/// carriers 4 and 5 (RULES N4). A sheet cannot hold them. In wire form the
/// length octet that leads past the limit is at fault, in text the 254th octet.
fn add_too_long(table: &mut Table) {
    let name = name_of(&[63, 63, 63, 62]);
    assert_eq!((name.len(), text(&name).len()), (256, 254));
    for carrier in [2, 3] {
        let place = bad_name(name_at(carrier, 0) + 3 * 64);
        let source = format!("RULES N1, 256 octets in carrier {carrier}");
        let octets = area(carrier, &with(carrier, &name));
        table.discarded(source, carrier, &octets, place);
        let source = format!("RULES N1, ADN length 400 in carrier {carrier}");
        let name = name_of(&[63, 63, 63, 63, 63, 63, 14]);
        assert_eq!(name.len(), 400);
        let octets = area(carrier, &with(carrier, &name));
        table.discarded(source, carrier, &octets, place);
    }
    for carrier in [4, 5] {
        for last in [62, 63] {
            let name = name_of(&[63, 63, 63, last]);
            let length = text(&name).len();
            let source = format!("RULES N4, text of {length} octets in carrier {carrier}");
            let place = bad_name(name_at(carrier, 1) + 253);
            let octets = area(carrier, &with(carrier, &name));
            table.discarded(source, carrier, &octets, place);
        }
    }
}

/// A label of 64 octets, alone and behind another label. In wire form its
/// length octet is at fault, in text its 64th octet.
fn add_long_labels(table: &mut Table) {
    for carrier in 1..=5 {
        for (lengths, before) in [(&[64][..], 0), (&[3, 64], 4)] {
            let resolvers = with(carrier, &name_of(lengths));
            let source = format!("RULES N1, a label of 64 octets, carrier {carrier}");
            let place = name_at(carrier, 1) + before + if carrier < 4 { 0 } else { 63 };
            let octets = area(carrier, &resolvers);
            table.discarded(source.clone(), carrier, &octets, bad_name(place));
            let octets = sheet(carrier, &resolvers);
            table.write_refused(source, ROOM, &octets, bad_name(FIRST_NAME + before));
        }
    }
}

/// Wire names that are not accepted, and the place in each (RULES N5).
const BAD_WIRE: [(&[u8], usize, &str); 14] = [
    (b"", 0, "no octets"),
    (b"\0", 0, "the root alone"),
    (b"\x01a", 2, "no root"),
    (b"\x03ab\0", 3, "the root within a label"),
    (b"\x01a\0\0", 3, "an octet after the root"),
    (b"\x01a\0\x01b\0", 3, "a second name"),
    (b"\x01a\xc0\x00", 2, "compression"),
    (b"\xc0\x0c\0", 0, "compression alone"),
    (b"\x02-a\0", 1, "a hyphen first in a label"),
    (b"\x02a-\0", 2, "a hyphen last in a label"),
    (b"\x01-\0", 1, "a hyphen alone"),
    (b"\x03a_b\0", 2, "an underscore"),
    (b"\x03a.b\0", 2, "a dot within a label"),
    (b"\x02\xc3\xa4\0", 1, "octets above 127"),
];

/// The same as text, and what only a text can have.
const BAD_TEXT: [(&[u8], usize, &str); 14] = [
    (b"", 0, "no octets"),
    (b".", 0, "a dot alone"),
    (b"a.", 2, "a final dot"),
    (b".a", 0, "a dot first"),
    (b"a..b", 2, "an empty label"),
    (b"-a", 0, "a hyphen first"),
    (b"a-", 2, "a hyphen last"),
    (b"a.-b", 2, "a hyphen after a dot"),
    (b"a-.b", 2, "a hyphen before a dot"),
    (b"a_b", 1, "an underscore"),
    (b"a\0", 1, "NULL at the end (RFC 9464 §3.1)"),
    (b"a\r", 1, "CR at the end (RFC 9464 §3.1)"),
    (b"\x01a\0", 0, "wire form"),
    (b"\xc3\xa4.example", 0, "octets above 127"),
];

/// A block with this name as it stands, name only in carriers 1 to 3 and full
/// in carriers 4 and 5.
fn raw_block(carrier: u8, name: &[u8]) -> Vec<u8> {
    let length = one(name.len());
    let fields = match carrier {
        1 => {
            let instance = [&[0, 1], &length[..], name].concat();
            [&two(instance.len())[..], &instance].concat()
        }
        2 => [&[0, 1, 0], &length[..], name].concat(),
        3 => [&[0, 1, 0, 0, 0, 9, 0], &length[..], name].concat(),
        _ => {
            let address = address(carrier, 1);
            [&[0, 1, 1], &length[..], &address, name, P].concat()
        }
    };
    option(carrier, &fields)
}

/// Names of the two lists above, 22 in every carrier; in a sheet all carriers
/// have the wire form.
fn add_bad(table: &mut Table) {
    for (name, place, what) in BAD_WIRE {
        for carrier in 1..=3 {
            let source = format!("RULES N1 to N4, {what}, carrier {carrier}");
            let place = bad_name(name_at(carrier, 0) + place);
            table.discarded(source, carrier, &raw_block(carrier, name), place);
        }
        for carrier in 1..=5 {
            let source = format!("RULES N1, N2, {what}, sheet of carrier {carrier}");
            let sheet = sheet(carrier, &with(carrier, name));
            table.write_refused(source, ROOM, &sheet, bad_name(FIRST_NAME + place));
        }
    }
    for (name, place, what) in BAD_TEXT {
        for carrier in [4, 5] {
            let source = format!("RULES N4, text with {what}, carrier {carrier}");
            let place = bad_name(name_at(carrier, 1) + place);
            table.discarded(source, carrier, &raw_block(carrier, name), place);
        }
    }
}

/// A name must fill the ADN length exactly: with an ADN length one less the
/// root is left out, and with one more the octet behind it is taken in.
fn add_lengths(table: &mut Table) {
    // In K1 the address length is then 0, behind the cut name, or 4,128, which
    // runs past the end. In K3 the zeros behind the name become part of it. The
    // cut name is at fault at its end, the longer one behind its 18 octets.
    let in_k1: &[(u8, Fault)] = &[(17, bad_name(8 + 17)), (19, fault(20))];
    let in_k3: &[(u8, Fault)] = &[
        (17, bad_name(10 + 17)),
        (19, bad_name(10 + 18)),
        (22, bad_name(10 + 18)),
        (23, fault(20)),
    ];
    for (carrier, octets, place, faults) in [(2, k1(), 7, in_k1), (3, k3(), 9, in_k3)] {
        for (length, fault) in faults {
            let mut octets = octets.clone();
            octets[place] = *length;
            let source = format!("RULES N1, ADN length {length} for N in carrier {carrier}");
            table.discarded(source, carrier, &octets, *fault);
        }
    }
}

/// All of the above.
pub fn add(table: &mut Table) {
    add_good(table);
    add_too_long(table);
    add_long_labels(table);
    add_bad(table);
    add_lengths(table);
}
