//! Sheets that are refused for their form, and the order of the refusals of
//! writing (RULES R40 to R44, T5).

use super::layout::{
    address, addresses, area, hex, letter_name, name_of, params_of, sheet, Resolver, A, N, P,
};
use super::pieces::{empty_sheet, k12_sheet, k1_sheet, k2_sheet, k3_sheet, k5_sheet};
use super::table::{bad_name, fault, Fault, Table, ROOM};

/// A sheet with one octet set to another value.
fn with(mut sheet: Vec<u8>, place: usize, octet: u8) -> Vec<u8> {
    sheet[place] = octet;
    sheet
}

/// 40 to 42 and the count, in their order: letters, version, carrier, count.
fn add_headers(table: &mut Table) {
    let mut refused = |what: &str, sheet: &[u8], number| {
        let source = format!("RULES T5, writing: {what}");
        table.write_refused(source, ROOM, sheet, number);
    };
    let k1 = k1_sheet();
    for length in 0..7 {
        refused("shorter than 7 octets", &k1[..length], 40);
    }
    refused("RSW", &with(k1.clone(), 2, b'W'), 40);
    refused("rSV", &with(k1.clone(), 0, b'r'), 40);
    refused("RsV", &with(k1.clone(), 1, b's'), 40);
    for (high, low) in [(0, 0), (0, 2), (1, 0), (1, 1), (0, 255)] {
        let sheet = with(with(k1.clone(), 3, high), 4, low);
        refused("version not 1", &sheet, 41);
    }
    for carrier in [0, 6, 255] {
        refused("carrier not 1 to 5", &with(k1.clone(), 5, carrier), 42);
    }
    for count in [17, 18, 255] {
        refused("count above 16", &with(k1.clone(), 6, count), 4);
    }
    refused("40 before 41", &hex("52 53 57 00 02 00 11"), 40);
    refused("41 before 42", &hex("52 53 56 00 02 00 11"), 41);
    refused("42 before 4", &hex("52 53 56 00 01 00 11"), 42);
    refused("4 before 43", &hex("52 53 56 00 01 02 11 00"), 4);
    let source = "RULES S1, 7 octets and no record";
    for carrier in 1..=5 {
        // Room 0 suffices (RULES E2); K6 has it too.
        table.write(source, 1, &empty_sheet(carrier), &[]);
    }
}

/// 43: the sheet does not tile, a mode is not 0 or 1, priorities fall, or there
/// is a lifetime where none belongs.
fn add_shapes(table: &mut Table) {
    let mut refused = |what: &str, sheet: &[u8]| {
        let source = format!("RULES R43, {what}");
        table.write_refused(source, ROOM, sheet, 43);
    };
    for (name, sheet) in [
        ("K1", k1_sheet()),
        ("K2", k2_sheet()),
        ("K3", k3_sheet()),
        ("K5", k5_sheet()),
    ] {
        refused(
            &format!("{name} and an octet"),
            &[&sheet[..], &[0]].concat(),
        );
        refused(&format!("{name} less an octet"), &sheet[..sheet.len() - 1]);
        refused(&format!("{name}, mode 2"), &with(sheet.clone(), 13, 2));
        refused(&format!("{name}, mode 255"), &with(sheet.clone(), 13, 255));
        refused(&format!("{name}, count 0"), &with(sheet.clone(), 6, 0));
        refused(&format!("{name}, count 2"), &with(sheet.clone(), 6, 2));
        refused(&format!("{name}, longer name"), &with(sheet, 14, 255));
    }
    // K1's address count, parameter length, and mode 0 over a full record.
    refused("K1, no address counted", &with(k1_sheet(), 33, 0));
    refused("K1, two addresses counted", &with(k1_sheet(), 33, 2));
    refused("K1, a shorter parameter length", &with(k1_sheet(), 51, 7));
    refused("K1, a longer parameter length", &with(k1_sheet(), 51, 9));
    refused("K1, mode 0", &with(k1_sheet(), 13, 0));
    refused("K2, mode 1", &with(k2_sheet(), 13, 1));
    refused(
        "an octet after no record",
        &[empty_sheet(2), vec![0]].concat(),
    );
    // K12's first record has priority 1; the others have 5.
    refused("K12, the first record at 6", &with(k12_sheet(), 8, 6));
    refused(
        "K12, the last record at 4",
        &with(k12_sheet(), 7 + 19 * 2 + 1, 4),
    );
}

/// Lifetime is zero except for carrier 3 (RULES S4).
fn add_lifetimes(table: &mut Table) {
    for carrier in [1, 2, 4, 5] {
        for lifetime in [1, 3_600, 0xff00_0000, u32::MAX] {
            let resolver = Resolver::small(carrier, 1, N).living(lifetime);
            let source = format!("RULES R43, lifetime {lifetime} in carrier {carrier}");
            table.write_refused(source, ROOM, &sheet(carrier, &[resolver]), 43);
        }
    }
    for lifetime in [0, 1, 3_600, 0xff00_0000, u32::MAX] {
        let source = format!("RULES S4, lifetime {lifetime} in carrier 3");
        table.goes_round(source, 3, &[Resolver::named(1, N).living(lifetime)]);
    }
}

/// Sixteen and seventeen records announced: 4 is for the count alone, and a
/// sheet of sixteen that falls short is 43 (RULES T5).
fn add_counts(table: &mut Table) {
    let records: Vec<Resolver> = (0..16)
        .map(|index| Resolver::named(7, &letter_name(b'a' + index)))
        .collect();
    let whole = sheet(2, &records);
    let source = "RULES R43, fifteen of sixteen records";
    table.write_refused(source, ROOM, &whole[..whole.len() - 11], 43);
    let source = "RULES R4, count 17 and sixteen records";
    table.write_refused(source, ROOM, &with(whole.clone(), 6, 17), 4);
    let source = "RULES R4, count 16 and equal priorities";
    table.write_in_rooms(source, &whole, &area(2, &records));
}

/// 43 over the whole sheet goes before 21 of its first record (RULES T5), and
/// a priority 0 does not fall, it is 21.
fn add_priorities(table: &mut Table) {
    let name = letter_name(b'a');
    let mut refused = |what: &str, priorities: &[u16], number| {
        let records: Vec<Resolver> = priorities
            .iter()
            .map(|priority| Resolver::named(*priority, &name))
            .collect();
        let source = format!("RULES T5, priorities {what}");
        table.write_refused(source, ROOM, &sheet(2, &records), number);
    };
    refused("0, 2, 1", &[0, 2, 1], 43);
    refused("0, 1, 2", &[0, 1, 2], 21);
    refused("1, 0", &[1, 0], 43);
    refused("256, 255", &[256, 255], 43);
    refused("65535, 1", &[65_535, 1], 43);
    let source = "RULES S5, priorities 1, 255, 256, 65535";
    let records = [1, 255, 256, 65_535].map(|priority| Resolver::named(priority, &name));
    table.goes_round(source, 2, &records);
}

/// 23 and 24 in sheets: name only in carriers 4 and 5 (RULES T4), no address
/// (RULES R23), more of them than any record has, and empty parameters, which
/// are good (RULES P1).
fn add_records(table: &mut Table) {
    for carrier in [4, 5] {
        let source = format!("RULES T4, mode 0 in carrier {carrier}");
        let named = |priority, name: &[u8]| sheet(carrier, &[Resolver::named(priority, name)]);
        table.write_refused(source.clone(), ROOM, &named(1, N), 23);
        table.write_refused(source.clone() + ", 21 before", ROOM, &named(0, N), 21);
        let (source, place) = (source + ", 22 before", bad_name(7 + 8 + 1));
        table.write_refused(source, ROOM, &named(1, b"\x01-\0"), place);
    }
    for carrier in 1..=5 {
        let full = |addresses: &[u8]| [Resolver::full(1, N, addresses, &[])];
        let source = format!("RULES R23, mode 1 without addresses in carrier {carrier}");
        table.write_refused(source, ROOM, &sheet(carrier, &full(&[])), 23);
        let source = format!("RULES P1, no parameters in carrier {carrier}");
        table.goes_round(source, carrier, &full(&address(carrier, 1)));
    }
    let many = Resolver::full(1, N, &addresses(4, 255), P);
    let source = "RULES R24, 255 addresses in carrier 4";
    table.write_refused(source, ROOM, &sheet(4, &[many]), 24);
}

/// 21 to 28 record by record, then 44, then 5 (RULES T5).
fn add_record_order(table: &mut Table) {
    let good = Resolver::full(1, N, A, P);
    let wrong = Resolver::full(1, b"\x01_\0", A, P);
    let bad_port = Resolver::full(1, N, A, &hex("00 03 00 01 35"));
    let large = Resolver::full(1, N, &addresses(3, 63), &params_of(1_001));
    let mut refused = |what: &str, room: usize, records: &[&Resolver], number: Fault| {
        let records: Vec<Resolver> = records.iter().map(|record| (*record).clone()).collect();
        let source = format!("RULES T5, {what}");
        table.write_refused(source, room, &sheet(3, &records), number);
    };
    // Where the wrong octet of the second record stands: behind the head, the
    // first record (8 octets to the name length, N, number of addresses,
    // addresses, parameter length, parameters), 8 octets and a length octet.
    let behind_good = bad_name(7 + (8 + 18 + 1 + 16 + 2 + 8) + 8 + 1);
    let behind_large = bad_name(7 + (8 + 18 + 1 + 63 * 16 + 2 + 1_001) + 8 + 1);
    refused("28, then 22", ROOM, &[&bad_port, &wrong], fault(28));
    let records = [&good, &wrong, &bad_port];
    refused("22 of the second", ROOM, &records, behind_good);
    refused("44, then 22", ROOM, &[&large, &wrong], behind_large);
    refused("44 of the second", ROOM, &[&good, &large], fault(44));
    refused("44 before 5", 0, &[&large], fault(44));
    refused("22 before 5", 0, &[&wrong], bad_name(7 + 8 + 1));
    refused("5", 0, &[&good], fault(5));
    let longest = Resolver::named(1, &name_of(&[63, 63, 63, 61]));
    let source = "RULES R44, name only is at most 272 octets in carrier 3";
    let octets = area(3, std::slice::from_ref(&longest));
    assert_eq!(octets.len(), 272);
    table.write_in_rooms(source, &sheet(3, &[longest]), &octets);
}

/// All of the above.
pub fn add(table: &mut Table) {
    add_headers(table);
    add_shapes(table);
    add_lifetimes(table);
    add_counts(table);
    add_priorities(table);
    add_records(table);
    add_record_order(table);
}
