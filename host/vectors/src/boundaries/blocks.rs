//! Fields and framing of carrier 2, faults in their order, and blocks that are
//! discarded among blocks that are kept (RULES B1, T2, W9).

use super::layout::{
    address, area, coded, hex, letter_name, name_at, option, sheet, Resolver, A, N, P,
};
use super::pieces::{k1, k12, k12_sheet, k1_sheet};
use super::table::{bad_name, fault, Done, Fault, Table, ROOM};

/// K1 with some octets changed. Places: length 3, priority 5, ADN length 7,
/// name 8, address length 27, address 28, parameters 44.
fn k1_with(changes: &[(usize, u8)]) -> Vec<u8> {
    let mut octets = k1();
    for (place, octet) in changes {
        octets[*place] = *octet;
    }
    octets
}

/// The first of 20, 21 to 28 is given: K1 gets one fault more in each step, and
/// each goes before the one there so far.
fn add_orders(table: &mut Table) {
    let source = "RULES T2, order of faults in carrier 2";
    let loopback = (28..44).map(|place| (place, u8::from(place == 43)));
    let steps: [(Vec<(usize, u8)>, Fault); 8] = [
        // alpn with an empty string, key 4, a value past the end, ::1.
        (vec![(48, 0)], fault(28)),
        (vec![(45, 4)], fault(27)),
        (vec![(47, 9)], fault(26)),
        (loopback.collect(), fault(25)),
        // An address length of 15, a label of 64 octets, priority 0, an
        // address length past the end.
        (vec![(27, 15)], fault(23)),
        (vec![(8, 64)], bad_name(8)),
        (vec![(5, 0)], fault(21)),
        (vec![(26, 1)], fault(20)),
    ];
    let mut changes = Vec::new();
    for (more, fault) in steps {
        changes.extend(more);
        table.discarded(source, 2, &k1_with(&changes), fault);
    }
    // Address lengths that end at the option's end, and one octet behind it.
    for (length, fault) in [(0, 23), (15, 23), (17, 23), (24, 23), (25, 20)] {
        let source = format!("RULES R23, K1 with address length {length}");
        table.discarded(source, 2, &k1_with(&[(27, length)]), fault);
    }
    // 24 goes before 25, and 23 before 24.
    let all_dropped = Resolver::full(1, N, &[0xff; 64 * 16], P);
    table.discarded(source, 2, &area(2, &[all_dropped]), 24);
    let no_multiple = Resolver::full(1, N, &[0xff; 64 * 16 + 1], P);
    table.discarded(source, 2, &area(2, &[no_multiple]), 23);
}

/// K1's fields cut after each octet, in an option of that length. They are whole
/// after the name and after the address; one octet behind the name is 20
/// (RULES B5).
fn add_short(table: &mut Table) {
    let fields = &k1()[4..];
    let named = Done::kept(1, &sheet(2, &[Resolver::named(1, N)]));
    let full = Done::kept(1, &sheet(2, &[Resolver::full(1, N, A, &[])]));
    for length in 0..fields.len() {
        let octets = option(2, &fields[..length]);
        let source = format!("RULES B1, K1's first {length} octets as an option");
        match length {
            22 => table.read(source, 2, ROOM, &octets, &named),
            40 => table.read(source, 2, ROOM, &octets, &full),
            // Within priority, ADN length, name, address length, address.
            0..40 => table.discarded(source, 2, &octets, 20),
            // Parameters that do not tile.
            _ => table.discarded(source, 2, &octets, 26),
        }
    }
}

/// Framing of carrier 2, which has no padding code (RULES W5), over the whole
/// area before anything else (RULES T1).
fn add_framing(table: &mut Table) {
    let mut refused = |what: &str, octets: &[u8]| {
        let source = format!("RULES R3, carrier 2, {what}");
        for room in [0, ROOM] {
            table.read_refused(source.clone(), 2, room, octets, 3);
        }
    };
    for zeros in 1..4 {
        let octets = [k1(), vec![0; zeros]].concat();
        refused(&format!("K1 and {zeros} zeros"), &octets);
    }
    refused("a foreign header", &hex("00 17 00 01"));
    refused("a length of 65,535", &hex("00 17 ff ff 00"));
    refused("K1's length one more", &k1_with(&[(3, 0x31)]));
    // One less: the last octet, the letter t, is a header cut short.
    refused("K1's length one less", &k1_with(&[(3, 0x2f)]));
    let seventeen = Resolver::named(1, N).block(2).repeat(17);
    refused(
        "seventeen records and a zero",
        &[seventeen, vec![0]].concat(),
    );
    let alias = k1_with(&[(5, 0)]);
    refused("a fault and a zero", &[alias, vec![0]].concat());
    let source = "RULES W5, K1 and four zeros";
    let octets = [k1(), vec![0; 4]].concat();
    table.read(source, 2, ROOM, &octets, &Done::kept(1, &k1_sheet()));
    let source = "RULES W8, carrier 2, K12 among foreign options";
    let foreign = coded(2, 23, &k1());
    let octets = [&foreign[..], &k12()[..19], &foreign, &k12()[19..], &foreign].concat();
    table.read(source, 2, ROOM, &octets, &Done::kept(3, &k12_sheet()));
}

/// A block with a fault is discarded whole and the reading goes on; the first
/// discarded block gives the fault, in area order, not by priority.
fn add_discarded(table: &mut Table) {
    for carrier in 2..=5 {
        let good = |priority, letter| {
            let name = letter_name(letter);
            Resolver::full(priority, &name, &address(carrier, 1), P)
        };
        let hinted = |priority| {
            let hint = hex("00 04 00 00");
            Resolver::full(priority, N, &address(carrier, 1), &hint)
        };
        let arrived = [
            good(3, b'a'),
            hinted(9),
            good(1, b'b'),
            hinted(0),
            good(2, b'c'),
            Resolver::full(1, b"\x01-\0", &address(carrier, 1), P),
        ];
        let ordered = [good(1, b'b'), good(2, b'c'), good(3, b'a')];
        let done = Done {
            found: 6,
            discarded: 3,
            fault: fault(27),
            sheet: sheet(carrier, &ordered),
        };
        let source = format!("RULES W9, blocks discarded among others, carrier {carrier}");
        table.read_in_rooms(&source, carrier, &area(carrier, &arrived), &done);
        let mut turned = arrived;
        turned.reverse();
        let source = source + ", turned round";
        // The hyphen stands behind its label's length, or first in the text.
        let hyphen = if carrier < 4 { 1 } else { 0 };
        let done = Done {
            fault: bad_name(name_at(carrier, 1) + hyphen),
            ..done
        };
        table.read(source, carrier, ROOM, &area(carrier, &turned), &done);
    }
}

/// Records stand by rising priority, equal ones in the order of arrival.
fn add_order(table: &mut Table) {
    for carrier in 1..=5 {
        let named = |(priority, letter): (u16, u8)| {
            Resolver::small(carrier, priority, &letter_name(letter))
        };
        let arrived = [
            (30, b'a'),
            (10, b'b'),
            (30, b'c'),
            (20, b'd'),
            (10, b'e'),
            (5, b'f'),
        ];
        let ordered = [
            (5, b'f'),
            (10, b'b'),
            (10, b'e'),
            (20, b'd'),
            (30, b'a'),
            (30, b'c'),
        ];
        let found = if carrier == 1 { 1 } else { 6 };
        let done = Done::kept(found, &sheet(carrier, &ordered.map(named)));
        let source = format!("RULES S5, six by priority in carrier {carrier}");
        let octets = area(carrier, &arrived.map(named));
        table.read(source, carrier, ROOM, &octets, &done);
    }
}

/// Refusals in their order: 3, 4, 5 (RULES T1), and 5 for every room
/// below the sheet's length.
fn add_rooms(table: &mut Table) {
    let source = "RULES R5, K1 in little room";
    for room in [0, 1, 6, 7, 8, 30, 58] {
        table.read_refused(source, 2, room, &k1(), 5);
    }
    let source = "RULES R5, K1's sheet in little room";
    for room in [0, 1, 4, 26, 50] {
        table.write_refused(source, room, &k1_sheet(), 5);
    }
    // A discarded block leaves a sheet of 7 octets, which needs its room.
    let source = "RULES R5, K7 in little room";
    for room in [0, 6] {
        table.read_refused(source, 2, room, &k1_with(&[(5, 0)]), 5);
    }
}

/// All of the above.
pub fn add(table: &mut Table) {
    add_orders(table);
    add_short(table);
    add_framing(table);
    add_discarded(table);
    add_order(table);
    add_rooms(table);
}
