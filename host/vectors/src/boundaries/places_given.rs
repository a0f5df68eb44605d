//! Which place a call gives back (RULES W11, T8): that of the first
//! discarded block, counted in that block, or that of the record for which a
//! sheet is refused. Other faults, and every refusal of a reading, have 0.

use super::layout::{
    address, addresses, area, coded, hex, letter_name, name_at, option, options_162, sheet, width,
    Resolver, A, A4, N, P,
};
use super::pieces::k8_joined;
use super::places::attribute;
use super::table::{bad_name, fault, Done, Fault, Table, ROOM};

/// The name "a_" in wire form, at fault at 2.
const BAD: &[u8] = b"\x02a_\0";
/// The name "-" in wire form, at fault at 1.
const HYPHEN: &[u8] = b"\x01-\0";

/// The place of BAD or HYPHEN in a block's name: in carriers 4 and 5 they are
/// texts, without the length octet in front.
fn in_name(carrier: u8, wire_place: usize) -> usize {
    wire_place - if carrier < 4 { 0 } else { 1 }
}

/// A resolver with one address and P.
fn resolver(carrier: u8, priority: u16, name: &[u8]) -> Resolver {
    Resolver::full(priority, name, &address(carrier, 1), P)
}

/// Carrier 1: the bad name in the first, second and third of three instances,
/// the joined data cut into two options 162, within the third at every octet. An
/// option's header is not counted, nor are padding and foreign options between.
fn add_instances(table: &mut Table) {
    let good = Resolver::named(1, N).block(1);
    let bad = Resolver::full(1, BAD, A4, &[]).block(1);
    assert_eq!(good.len(), 2 + 2 + 1 + 18);
    assert_eq!(bad.len(), 2 + 2 + 1 + 4 + 1 + 4);
    let joined = |before| [good.repeat(before), bad.clone(), good.repeat(2 - before)].concat();
    let at = |before| bad_name(before * 23 + 5 + 2);
    let cuts = (46..=60).map(|cut| (2, cut));
    for (before, cut) in [(0, 0), (0, 1), (0, 8), (1, 23), (1, 31)]
        .into_iter()
        .chain(cuts)
    {
        let source = format!("RULES W11, instance {before} from 0, cut after {cut} octets");
        let joined = joined(before);
        let (front, back) = joined.split_at(cut);
        let parts = [option(1, front), hex("00 0c 01 07"), option(1, back)];
        table.discarded(source, 1, &parts.concat(), at(before));
    }
    let source = "RULES W11, instance 2 from 0, options of one octet";
    let octets: Vec<u8> = joined(2)
        .chunks(1)
        .flat_map(|data| option(1, data))
        .collect();
    table.discarded(source, 1, &octets, at(2));
    let source = "RULES W11, an instance behind the 300 octets of K8";
    let octets = options_162(&[k8_joined(), bad].concat());
    table.discarded(source, 1, &octets, bad_name(300 + 5 + 2));
}

/// Carrier 1: the first instance with a fault gives it, and the place with it.
fn add_first_instance(table: &mut Table) {
    let good = Resolver::named(1, N).block(1);
    let (bad, hyphen) = (
        Resolver::named(1, BAD).block(1),
        Resolver::named(1, HYPHEN).block(1),
    );
    let alias = Resolver::named(0, BAD).block(1);
    let no_address = Resolver::full(1, N, &[], &[]).block(1);
    let past = hex("0040 0001");
    let rows: [(&str, &[&[u8]], Fault); 7] = [
        ("22, then 22", &[&bad, &hyphen], bad_name(5 + 2)),
        ("22 in the other order", &[&hyphen, &bad], bad_name(5 + 1)),
        ("22, then past the end", &[&bad, &past], bad_name(5 + 2)),
        (
            "22, then 23",
            &[&good, &bad, &no_address],
            bad_name(23 + 5 + 2),
        ),
        ("23, then 22", &[&no_address, &bad], fault(23)),
        ("21 and 22 of one", &[&alias, &bad], fault(21)),
        ("good, then 21, then 22", &[&good, &alias, &bad], fault(21)),
    ];
    for (what, instances, fault) in rows {
        let source = format!("RULES W11, T2, {what}");
        table.discarded(source, 1, &options_162(&instances.concat()), fault);
    }
}

/// Several discarded blocks among good and foreign ones: the first gives fault
/// and place, and the place does not depend on what stands before the block.
fn add_blocks(table: &mut Table) {
    for carrier in 2..=5 {
        let good = resolver(carrier, 3, N);
        let bad = resolver(carrier, 1, BAD).block(carrier);
        let hyphen = resolver(carrier, 1, HYPHEN).block(carrier);
        let alias = resolver(carrier, 0, BAD).block(carrier);
        let short = option(carrier, &[0, 1]);
        let at = |place| bad_name(name_at(carrier, 1) + in_name(carrier, place));
        let rows: [(&str, [&[u8]; 2], Fault); 6] = [
            ("22, then 21", [&bad, &alias], at(2)),
            ("22, then 20", [&bad, &short], at(2)),
            ("22, then 22", [&bad, &hyphen], at(2)),
            ("22 in the other order", [&hyphen, &bad], at(1)),
            ("21, then 22", [&alias, &bad], fault(21)),
            ("20, then 22", [&short, &bad], fault(20)),
        ];
        for (what, [first, second], fault) in rows {
            let (whole, foreign) = (good.block(carrier), coded(carrier, 23, &[9; 6]));
            let octets = [&foreign[..], &whole, first, &foreign, second, &whole].concat();
            let done = Done {
                found: 4,
                discarded: 2,
                fault,
                sheet: sheet(carrier, &[good.clone(), good.clone()]),
            };
            let source = format!("RULES W10, W11, {what}, carrier {carrier}");
            table.read(source, carrier, ROOM, &octets, &done);
        }
    }
}

/// A bad name beside other faults of its block: 20, 29 and 21 go before 22 and
/// have no place; 23 to 28 come behind it. In carriers 4 and 5 addresses count
/// as they are carried, those to be dropped too.
fn add_one_block(table: &mut Table) {
    for carrier in 1..=5 {
        let dropped = vec![0xff; 2 * width(carrier)];
        let both = [&dropped[..], &address(carrier, 1)].concat();
        let at = |count| bad_name(name_at(carrier, count) + in_name(carrier, 2));
        for (what, priority, addresses, params, fault) in [
            ("no address", 1, vec![], P, at(0)),
            ("25", 1, dropped, P, at(2)),
            ("two addresses to drop", 1, both, P, at(3)),
            ("26", 1, address(carrier, 1), &[0; 3][..], at(1)),
            ("27", 1, address(carrier, 1), &[0, 4, 0, 0], at(1)),
            ("28", 1, address(carrier, 1), &[0, 2, 0, 0], at(1)),
            ("21", 0, address(carrier, 1), P, fault(21)),
        ] {
            let source = format!("RULES W11, T2, a bad name and {what}, carrier {carrier}");
            let bad = [Resolver::full(priority, BAD, &addresses, params)];
            table.discarded(source, carrier, &area(carrier, &bad), fault);
        }
    }
    let source = "RULES W11, T2, a bad name and 64 addresses, carrier 4";
    let octets = attribute(4, 1, 64, b"a_");
    table.discarded(source, 4, &octets, bad_name(8 + 64 * 4 + 1));
    let source = "RULES W11, T2, a bad name and 29, carrier 3";
    let mut octets = Resolver::named(1, b"\x01_\0").block(3);
    *octets.last_mut().expect("an option has octets") = 1;
    table.discarded(source, 3, &octets, 29);
    let source = "RULES W11, T2, a bad name and 20, carrier 2";
    let octets = option(2, &[&hex("00 01 00 04"), BAD, &[0]].concat());
    table.discarded(source, 2, &octets, 20);
}

/// A reading that is refused has no place, whatever a block's fault is.
fn add_refused_readings(table: &mut Table) {
    for carrier in 1..=5 {
        let bad = [resolver(carrier, 1, BAD)];
        let octets = area(carrier, &bad);
        let source = format!("RULES W11, T6, a bad name and no room, carrier {carrier}");
        for room in [0, 6] {
            table.read_refused(source.clone(), carrier, room, &octets, 5);
        }
        let source = format!("RULES W11, T6, a bad name and a cut area, carrier {carrier}");
        let cut = &octets[..octets.len() - 1];
        table.read_refused(source, carrier, ROOM, cut, 3);
    }
    for carrier in 2..=5 {
        let source = format!("RULES W11, T6, a bad name and seventeen others, carrier {carrier}");
        let small = Resolver::small(carrier, 1, &letter_name(b'a')).block(carrier);
        let bad = resolver(carrier, 1, BAD).block(carrier);
        let octets = [bad, small.repeat(17)].concat();
        table.read_refused(source, carrier, ROOM, &octets, 4);
    }
}

/// The bad name in the first and the third record of a sheet, and in the
/// sixteenth. In a sheet names of carriers 4 and 5 too are in wire form.
fn add_records(table: &mut Table) {
    for carrier in 1..=5 {
        // Priority to name length 8, N 18, number of addresses 1, two
        // addresses, parameter length 2, P 8.
        let full = Resolver::full(1, N, &addresses(carrier, 2), P);
        let behind_full = 8 + 18 + 1 + 2 * width(carrier) + 2 + 8;
        let small = Resolver::small(carrier, 1, N);
        let behind_small = match carrier {
            1..=3 => 8 + 18,
            _ => 8 + 18 + 1 + width(carrier) + 2,
        };
        let bad = resolver(carrier, 1, BAD);
        let named = Resolver::small(carrier, 1, HYPHEN);
        let mut refused = |what: &str, room: usize, records: &[&Resolver], place: usize| {
            let records: Vec<Resolver> = records.iter().map(|one| (*one).clone()).collect();
            let source = format!("RULES T8, a sheet of carrier {carrier}, {what}");
            let octets = sheet(carrier, &records);
            table.write_refused(source, room, &octets, bad_name(place));
        };
        refused("the first", ROOM, &[&bad, &full, &named], 7 + 8 + 2);
        // 22 goes before 5, and its place does not depend on the room.
        let before = 7 + behind_small + behind_full;
        for room in [0, ROOM] {
            refused("the third", room, &[&small, &full, &bad], before + 8 + 2);
        }
        let records = [&full, &small, &named];
        refused("the third, small", ROOM, &records, before + 8 + 1);
        let before = 7 + 15 * behind_small;
        let records = [vec![&small; 15], vec![&named]].concat();
        refused("the sixteenth", ROOM, &records, before + 8 + 1);
    }
    let source = "RULES T8, a sheet of carrier 3 with lifetimes";
    let records = [N, BAD].map(|name| Resolver::full(7, name, A, P).living(u32::MAX));
    let at = bad_name(7 + (8 + 18 + 1 + 16 + 2 + 8) + 8 + 2);
    table.write_refused(source, ROOM, &sheet(3, &records), at);
}

/// What goes before 22 in a sheet has no place, and the first bad name gives it.
fn add_record_order(table: &mut Table) {
    for carrier in 1..=5 {
        let good = resolver(carrier, 1, N);
        let bad = resolver(carrier, 1, BAD);
        let hyphen = resolver(carrier, 1, HYPHEN);
        let no_address = Resolver::full(1, N, &[], P);
        let alias = resolver(carrier, 0, BAD);
        let falling = resolver(carrier, 9, BAD);
        let rows: [(&str, [&Resolver; 3], Fault); 6] = [
            ("23, then 22", [&no_address, &bad, &good], fault(23)),
            ("21 and 22 of one", [&alias, &good, &bad], fault(21)),
            ("22, then 22", [&bad, &hyphen, &good], bad_name(15 + 2)),
            ("22, then 23", [&bad, &no_address, &good], bad_name(15 + 2)),
            ("22, priorities fall", [&falling, &good, &good], fault(43)),
            ("23 of a third", [&good, &good, &no_address], fault(23)),
        ];
        for (what, records, fault) in rows {
            let source = format!("RULES T5, T8, carrier {carrier}, {what}");
            let octets = sheet(carrier, &records.map(Resolver::clone));
            table.write_refused(source, ROOM, &octets, fault);
        }
        let source = format!("RULES T5, T8, carrier {carrier}, one count too many");
        let mut octets = sheet(carrier, &[bad.clone()]);
        octets[6] = 2;
        table.write_refused(source.clone(), ROOM, &octets, 43);
        octets[6] = 17;
        table.write_refused(source, ROOM, &octets, 4);
    }
}

/// All of the above.
pub fn add(table: &mut Table) {
    add_instances(table);
    add_first_instance(table);
    add_blocks(table);
    add_one_block(table);
    add_refused_readings(table);
    add_records(table);
    add_record_order(table);
}
