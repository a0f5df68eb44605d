//! Carrier 3: zeros behind the fields, the option of 2,040 octets, and lengths
//! in units of eight (RULES W6, B5 to B8).

use super::layout::{addresses, area, hex, name_of, param, params_of, sheet, Resolver, A, N, P};
use super::pieces::{k3, k3_sheet, k4};
use super::table::{bad_name, Done, Table, ROOM};

/// A name-only option with so many octets of name and these behind it.
fn named(name: usize, rest: &[u8]) -> Vec<u8> {
    let length = 10 + name + rest.len();
    assert!(length.is_multiple_of(8));
    let head = [0x90, (length / 8) as u8, 0, 1, 0, 0, 0, 9, 0, name as u8];
    [&head[..], &name_of(&[name - 2]), rest].concat()
}

/// Padding is 0 to 7 zeros in the full form. An eighth zero, or an octet that
/// is not zero, is 29.
fn add_full(table: &mut Table) {
    for value in 0..8 {
        let zeros = (8 - (52 + value) % 8) % 8;
        let params = param(65_280, &vec![1; value]);
        let resolver = Resolver::full(1, N, A, &params).living(9);
        let source = format!("RULES B7, full form with {zeros} zeros");
        table.goes_round(source, 3, std::slice::from_ref(&resolver));
        let mut octets = area(3, &[resolver]);
        let fields = octets.len() - zeros;
        for place in fields..octets.len() {
            octets[place] = 1;
            let source = format!("RULES R29, octet {place} of {zeros} zeros set");
            table.discarded(source, 3, &octets, 29);
            octets[place] = 0;
        }
        // One unit more.
        octets[1] += 1;
        octets.extend([0; 8]);
        let source = format!("RULES R29, full form with {} zeros", zeros + 8);
        table.discarded(source, 3, &octets, 29);
    }
}

/// Fewer than 8 octets behind the name are zeros or 29, whatever they could
/// mean as fields (RULES B5).
fn add_name_only(table: &mut Table) {
    for zeros in 0..8 {
        let name = name_of(&[12 - zeros]);
        let source = format!("RULES B5, name only with {zeros} zeros");
        table.goes_round(source, 3, &[Resolver::named(1, &name).living(9)]);
        for place in 0..zeros {
            let mut rest = vec![0; zeros];
            rest[place] = 0x10;
            let source = format!("RULES R29, name only, octet {place} of {zeros} set");
            table.discarded(source, 3, &named(14 - zeros, &rest), 29);
        }
    }
}

/// Eight or more zeros behind the name are the full form: an address length of
/// 0 (23) with 4 to 7 zeros behind the parameter length, and 29 with more
/// (RULES B6).
fn add_more_zeros(table: &mut Table) {
    for (name, zeros, fault) in [
        (14, 8, 23),
        (13, 9, 23),
        (12, 10, 23),
        (11, 11, 23),
        (10, 12, 29),
        (7, 15, 29),
        (14, 16, 29),
    ] {
        let source = format!("RULES B6, {zeros} zeros behind the name");
        table.discarded(source, 3, &named(name, &vec![0; zeros]), fault);
    }
    // Address length 0, parameter length 8, P: 23, or 29 with 8 zeros more.
    let rest = [&hex("00 00 00 08")[..], P].concat();
    let source = "RULES R23, parameters without an address in carrier 3";
    table.discarded(source, 3, &named(10, &rest), 23);
    let rest = [rest, vec![0; 8]].concat();
    let source = "RULES T2, 29 before 23 in carrier 3";
    table.discarded(source, 3, &named(10, &rest), 29);
}

/// K4 with one octet changed, and the fault: 20 goes before 29, and 29 before
/// 21 to 28 (RULES T2).
fn add_orders(table: &mut Table) {
    let source = "RULES T2, order of faults in carrier 3";
    let mut with = |changes: &[(usize, u8)], fault| {
        let mut octets = k4();
        for (place, octet) in changes {
            octets[*place] = *octet;
        }
        table.discarded(source, 3, &octets, fault);
    };
    // Places: priority 3, ADN length 9, address length 29, parameter length 47.
    with(&[(9, 255)], 20);
    // Behind an address length of 17 the parameter length is 2,048.
    with(&[(29, 17)], 20);
    with(&[(29, 32)], 20);
    with(&[(47, 9)], 20);
    with(&[(3, 0)], 21);
    with(&[(3, 0), (47, 9)], 20);
    // A parameter length of 7 makes the letter t padding.
    with(&[(47, 7)], 29);
    with(&[(3, 0), (47, 7)], 29);
    // Parameters of 8 octets cut to 0: all of P is then padding.
    with(&[(47, 0)], 29);
    // Behind an address length of 15 the parameter length is 256.
    with(&[(29, 15)], 20);
    // An address of one octet, and a parameter length of 99 with three octets
    // left, which are no padding either.
    let rest = hex("00 01 09 00 63 07 07 07");
    table.discarded(source, 3, &named(14, &rest), 20);
}

/// 2,040 octets when rounded: written and read; above: 44. N, 63 addresses and
/// parameters of 993 to 1,000 octets fill 255 units.
fn add_largest(table: &mut Table) {
    let with = |params: usize| [Resolver::full(1, N, &addresses(3, 63), &params_of(params))];
    for (params, length) in [(992, 2_032), (993, 2_040), (1_000, 2_040)] {
        let source = format!("RULES R44, {} octets before rounding", 1_040 + params);
        assert_eq!(area(3, &with(params)).len(), length);
        table.goes_round(source, 3, &with(params));
    }
    for params in [1_001, 1_008, 1_009, 1_024] {
        let source = format!("RULES R44, {} octets before rounding", 1_040 + params);
        table.write_refused(source, ROOM, &sheet(3, &with(params)), 44);
    }
    // The longest name and 47 addresses leave 1,019 octets for the parameters.
    let longest = name_of(&[63, 63, 63, 61]);
    let with = |params: usize| {
        [Resolver::full(
            1,
            &longest,
            &addresses(3, 47),
            &params_of(params),
        )]
    };
    let source = "RULES R44, the longest name, 2,040 octets";
    table.goes_round(source, 3, &with(1_019));
    let source = "RULES R44, the longest name, 2,041 octets before rounding";
    table.write_refused(source, ROOM, &sheet(3, &with(1_020)), 44);
}

/// Areas that are not framed (RULES W6, R3): a length of 0, whatever the type,
/// and headers and bodies past the end.
const NOT_FRAMED: [(&str, &str); 6] = [
    ("length 0", "90 00 00 00 00 00 00 00"),
    ("length 0 of a foreign type", "19 00 00 00 00 00 00 00"),
    ("one octet", "90"),
    ("one octet of a foreign type", "19"),
    ("no body", "90 01"),
    ("seven octets of eight", "90 01 00 01 00 00 00"),
];

/// K3 with another length octet, which counts units of eight, not octets. After
/// three units, "com" and the root are framed alone: type 0x63, length 0x6f.
const OTHER_LENGTHS: [u8; 5] = [0, 3, 5, 32, 255];

/// Framing in units of eight.
fn add_framing(table: &mut Table) {
    for (what, octets) in NOT_FRAMED {
        let source = format!("RULES R3, carrier 3, {what}");
        table.read_refused(source, 3, ROOM, &hex(octets), 3);
    }
    for length in OTHER_LENGTHS {
        let mut octets = k3();
        octets[1] = length;
        let source = format!("RULES R3, K3 with length {length}");
        table.read_refused(source, 3, ROOM, &octets, 3);
    }
    for zeros in [1, 2, 8] {
        let source = format!("RULES W6, K3 and {zeros} zeros");
        let octets = [k3(), vec![0; zeros]].concat();
        table.read_refused(source, 3, ROOM, &octets, 3);
    }
}

/// Foreign options, one of which looks like K3 inside, and own options of one
/// and two units (RULES R20).
fn add_small(table: &mut Table) {
    let (like_k3, other) = (
        hex("19 01 90 04 00 01 00 00"),
        hex("8f 01 00 00 00 00 00 00"),
    );
    let source = "RULES W8, carrier 3, foreign options only";
    let none = Done::kept(0, &sheet(3, &[]));
    table.read(source, 3, ROOM, &[&like_k3[..], &other].concat(), &none);
    let source = "RULES W8, carrier 3, K3 between foreign options";
    let around = [like_k3, k3(), other].concat();
    table.read(source, 3, ROOM, &around, &Done::kept(1, &k3_sheet()));
    let source = "RULES R20, an option of one unit";
    table.discarded(source, 3, &hex("90 01 00 01 00 00 00 09"), 20);
    let source = "RULES R20, an option of two units without a name";
    let octets = hex("90 02 00 01 00 00 00 09 00 00 00 00 00 00 00 00");
    table.discarded(source, 3, &octets, bad_name(10));
}

/// All of the above.
pub fn add(table: &mut Table) {
    add_full(table);
    add_name_only(table);
    add_more_zeros(table);
    add_orders(table);
    add_largest(table);
    add_framing(table);
    add_small(table);
}
