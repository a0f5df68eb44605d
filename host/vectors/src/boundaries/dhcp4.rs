//! Carrier 1: padding, code 255, options 162 cut at every place, and the
//! lengths of instances (RULES W1 to W4, B4, B5).

use super::layout::{hex, option, options_162, params_of, sheet, Resolver, A4, N};
use super::pieces::{k2, k2_sheet, k8_joined, k8_sheet};
use super::table::{bad_name, fault, Done, Fault, Table, ROOM};

/// The name a with the address 192.0.2.1 and the port 853: an instance of 19
/// octets with its length.
fn small() -> Resolver {
    Resolver::full(1, b"\x01a\0", A4, &hex("00 03 00 02 03 55"))
}

/// A reading that keeps these records of one block.
fn kept(records: &[Resolver]) -> Done {
    Done::kept(1, &sheet(1, records))
}

/// The instance above as two options 162 at every cut, none and all included,
/// with and without other octets between them; and a second instance behind
/// it, which the cut also meets.
fn add_cuts(table: &mut Table) {
    let joined = small().block(1);
    assert_eq!(joined.len(), 19);
    let two = [&joined[..], &Resolver::named(1, b"\x01b\0").block(1)].concat();
    let done = kept(&[small()]);
    let both = kept(&[small(), Resolver::named(1, b"\x01b\0")]);
    for cut in 0..=joined.len() {
        let (front, back) = joined.split_at(cut);
        let source = format!("RULES W4, options 162 cut after {cut} octets");
        let octets = [option(1, front), option(1, back)].concat();
        table.read(source, 1, done.sheet.len(), &octets, &done);
    }
    for cut in 0..=two.len() {
        let (front, back) = two.split_at(cut);
        let source = format!("RULES W4, cut after {cut} octets, others between");
        // Padding, an option 3 whose data look like an option 162, padding.
        let between = hex("00 00 03 02 a2 09 00");
        let end = hex("00 ff a2 01");
        let octets = [option(1, front), between, option(1, back), end].concat();
        table.read(source, 1, ROOM, &octets, &both);
    }
    let source = "RULES W4, every octet in an option 162 of its own";
    let single: Vec<u8> = joined.iter().flat_map(|octet| [162, 1, *octet]).collect();
    table.read(source, 1, ROOM, &single, &done);
}

/// K8 cut at other places than the writer cuts it, and with an empty option.
fn add_large_cuts(table: &mut Table) {
    let joined = k8_joined();
    let done = Done::kept(1, &k8_sheet());
    for cuts in [&[45, 255][..], &[1, 255, 44], &[150, 150], &[255, 0, 45]] {
        let mut octets = Vec::new();
        let mut rest = &joined[..];
        for cut in cuts {
            let (data, behind) = rest.split_at(*cut);
            octets.extend(option(1, data));
            rest = behind;
        }
        let source = format!("RULES W4, K8 in options of {cuts:?}");
        table.read(source, 1, ROOM, &octets, &done);
    }
    // The first option alone: its instance runs past the joined data.
    let source = "RULES R20, K8's first option alone";
    table.discarded(source, 1, &option(1, &joined[..255]), 20);
}

/// Joined data at the edges of an option's 255 octets, as they are written: N,
/// 192.0.2.1 and a parameter, 28 octets around its own.
fn add_options(table: &mut Table) {
    for (joined, options) in [
        (254, 1),
        (255, 1),
        (256, 2),
        (510, 2),
        (511, 3),
        (765, 3),
        (766, 4),
    ] {
        let resolver = Resolver::full(1, N, A4, &params_of(joined - 28));
        assert_eq!(resolver.block(1).len(), joined);
        let octets = options_162(&resolver.block(1));
        assert_eq!(octets.len(), joined + 2 * options);
        let source = format!("RULES E2, joined data of {joined} octets written");
        table.goes_round(source, 1, &[resolver]);
    }
}

/// Octets before and behind K2, and whether it is found: code 0 is one octet of
/// padding; code 255 ends the area, and what follows is ignored, framed or not
/// (RULES W2, W3).
const AROUND_K2: [(&str, &str, &str, usize); 11] = [
    ("code 255 before", "ff", "", 0),
    ("padding and code 255 before", "00 00 ff", "", 0),
    ("a foreign option around", "0c 19", "", 0),
    ("code 255 behind", "", "ff", 1),
    ("padding and code 255 behind", "", "00 00 ff", 1),
    ("code 255, then octets not framed", "", "ff a2 17", 1),
    (
        "code 255, then an instance",
        "",
        "ff a2 08 0006 0001 03 0161 00",
        1,
    ),
    ("padding around", "00 00 00", "00 00 00 00 00", 1),
    ("a foreign option of zeros before", "0c 03 00 00 00", "", 1),
    ("a foreign option of 255s before", "0c 03 ff ff ff", "", 1),
    ("foreign options without data", "01 00 fe 00", "a1 00", 1),
];

/// Areas without an option 162.
const NO_BLOCK: [(&str, &str); 5] = [
    ("one padding", "00"),
    ("three paddings", "00 00 00"),
    ("code 255", "ff"),
    ("code 255 and octets not framed", "ff a2 ff"),
    ("a foreign option with 162 in it", "a1 02 a2 00"),
];

/// Padding and code 255.
fn add_codes(table: &mut Table) {
    let none = Done::kept(0, &sheet(1, &[]));
    for (what, before, behind, found) in AROUND_K2 {
        let source = format!("RULES W2, W3, K2 with {what}");
        let octets = [hex(before), k2(), hex(behind)].concat();
        let done = match found {
            0 => none.clone(),
            _ => Done::kept(found, &k2_sheet()),
        };
        table.read(source, 1, ROOM, &octets, &done);
    }
    for (what, octets) in NO_BLOCK {
        let source = format!("RULES W4, carrier 1, {what}");
        table.read(source, 1, ROOM, &hex(octets), &none);
    }
    let source = "RULES W2, carrier 1, 300 paddings";
    table.read(source, 1, ROOM, &[0; 300], &none);
    let twice = [Resolver::named(1, N), Resolver::named(1, N)];
    let source = "RULES W4, K2 twice is one block of two instances";
    table.read(source, 1, ROOM, &k2().repeat(2), &kept(&twice));
}

/// Octets before and behind K2 that are not framed (RULES R3).
const NOT_FRAMED: [(&str, &str, &str); 6] = [
    ("a code 162 behind", "", "a2"),
    ("a foreign code behind", "", "0c"),
    ("a code behind padding", "", "00 00 0c"),
    ("a body that is cut", "", "0c 02 00"),
    ("a foreign option before it that is longer", "0c ff", ""),
    ("an empty option 162 and a code", "a2 00", "a2"),
];

/// Framing, and an option 162 without data, which is a block without an
/// instance (RULES R20).
fn add_framing(table: &mut Table) {
    for (what, before, behind) in NOT_FRAMED {
        let source = format!("RULES R3, carrier 1, K2 with {what}");
        let octets = [hex(before), k2(), hex(behind)].concat();
        table.read_refused(source, 1, ROOM, &octets, 3);
    }
    for octets in ["a2", "0c", "a2 01", "fe 01", "00 fe", "a2 02 00 00 0c"] {
        let source = format!("RULES R3, carrier 1, {octets}");
        table.read_refused(source, 1, ROOM, &hex(octets), 3);
    }
    for octets in [
        "a2 00",
        "a2 00 a2 00",
        "00 a2 00 ff",
        "a2 00 0c 01 00 a2 00",
    ] {
        let source = format!("RULES R20, options 162 without data: {octets}");
        table.discarded(source, 1, &hex(octets), 20);
    }
}

/// Joined data too short for a name (RULES R20, R22).
const SHORT: [(&str, Fault); 7] = [
    ("00", fault(20)),
    ("0000", fault(20)),
    ("0001 00", fault(20)),
    ("0002 0001", fault(20)),
    // The empty name stands behind L, priority and ADN length.
    ("0003 0001 00", bad_name(2 + 2 + 1)),
    ("0004 0001 00 00", bad_name(2 + 2 + 1)),
    ("0003 0001 01", fault(20)),
];

/// Joined data with N: L, priority and ADN length before it, and what stands
/// behind it (RULES B4, B5).
const WITH_N: [(&str, &str, &str, usize); 13] = [
    ("L one less than ADN length + 3", "0014 0001 12", "", 20),
    ("L one more than the joined data", "0016 0001 12", "", 20),
    ("L of 65,535", "ffff 0001 12", "", 20),
    ("one octet behind the instance", "0015 0001 12", "00", 20),
    ("two octets behind the instance", "0015 0001 12", "0000", 20),
    ("an address length of 0", "0016 0001 12", "00", 23),
    (
        "an address length of 4, no address",
        "0016 0001 12",
        "04",
        20,
    ),
    ("an address length of 1", "0017 0001 12", "01 09", 23),
    ("an address length of 2", "0018 0001 12", "02 0909", 23),
    ("an address length of 3", "0019 0001 12", "03 090909", 23),
    (
        "an address length of 5",
        "001b 0001 12",
        "05 0909090909",
        23,
    ),
    (
        "an address length of 7",
        "001d 0001 12",
        "07 09090909090909",
        23,
    ),
    (
        "an address length of 4, three octets",
        "0019 0001 12",
        "04 090909",
        20,
    ),
];

/// L and the fields within it.
fn add_lengths(table: &mut Table) {
    for (joined, fault) in SHORT {
        let source = format!("RULES B1, joined data {joined}");
        table.discarded(source, 1, &option(1, &hex(joined)), fault);
    }
    for (what, before, behind, fault) in WITH_N {
        let source = format!("RULES B1, carrier 1, {what}");
        let joined = [&hex(before), N, &hex(behind)].concat();
        table.discarded(source, 1, &option(1, &joined), fault);
    }
}

/// The first instance with a fault gives it, whatever is behind (RULES T2), and
/// the block is discarded whole, good instances with it.
fn add_first_fault(table: &mut Table) {
    let alias = Resolver::named(0, N).block(1);
    let wrong = Resolver::named(1, b"\x01_\0").block(1);
    let good = small().block(1);
    // An instance past the joined data, and a field past its instance.
    let (past, short) = (hex("0040 0001"), hex("0001 00"));
    // An address length of 4 and no address: the next instance must not lend
    // its octets, since each is read from its own.
    let borrowing = [&hex("0016 0001 12"), N, &[4]].concat();
    // The underscore stands behind L, priority, ADN length and its label's
    // length. The good instance has 19 octets.
    let underscore = 2 + 2 + 1 + 1;
    let rows: [(&str, &[&[u8]], Fault); 9] = [
        ("21, then past the end", &[&alias, &past], fault(21)),
        ("good, then past the end", &[&good, &past], fault(20)),
        (
            "21, then a field past its end",
            &[&alias, &short],
            fault(21),
        ),
        (
            "a field past its end, then 21",
            &[&short, &alias],
            fault(20),
        ),
        ("22, then 21", &[&wrong, &alias], bad_name(underscore)),
        ("21, then 22", &[&alias, &wrong], fault(21)),
        (
            "good, then 22, then 21",
            &[&good, &wrong, &alias],
            bad_name(19 + underscore),
        ),
        ("good twice, then 21", &[&good, &good, &alias], fault(21)),
        ("a next instance's octets", &[&borrowing, &good], fault(20)),
    ];
    for (what, instances, fault) in rows {
        let source = format!("RULES T2, {what}");
        table.discarded(source, 1, &options_162(&instances.concat()), fault);
    }
}

/// All of the above.
pub fn add(table: &mut Table) {
    add_cuts(table);
    add_large_cuts(table);
    add_options(table);
    add_codes(table);
    add_framing(table);
    add_lengths(table);
    add_first_fault(table);
}
