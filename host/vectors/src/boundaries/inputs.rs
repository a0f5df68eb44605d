//! The longest inputs: areas and sheets of 40,960 octets and of one more, and
//! the largest records (RULES L1, L5, K13).

use super::layout::{
    addresses, area, coded, hex, name_of, own_code, params_of, sheet, Resolver, A, A4, N, P,
};
use super::pieces::k1;
use super::table::{fault, Done, Table, ROOM};

/// Octets of the longest input (RULES L1).
const LONGEST: usize = 40_960;

/// One resolver as each carrier has it: K2, K1, K4, K5, and the like of K5 for
/// carrier 4.
fn piece(carrier: u8) -> Resolver {
    match carrier {
        1 => Resolver::named(1, N),
        3 => Resolver::full(1, N, A, P).living(3_600),
        4 => Resolver::full(1, N, A4, P),
        _ => Resolver::full(1, N, A, P),
    }
}

/// So many octets, at least 120 and in carrier 3 a multiple of 8, of options or
/// attributes that are not the carrier's own. Their data repeat the own code,
/// so that a walk that loses its place would find blocks.
fn foreign(carrier: u8, length: usize) -> Vec<u8> {
    // DOTS addresses (RFC 8973), recursive DNS servers (RFC 8106), and the
    // attribute of the other family.
    let (code, header) = match carrier {
        1 => (148, 2),
        2 => (142, 4),
        3 => (25, 2),
        4 => (28, 4),
        _ => (27, 4),
    };
    let data = [own_code(carrier) as u8; 240];
    let mut octets = Vec::new();
    while length - octets.len() >= 240 {
        octets.extend(coded(carrier, code, &data[..120 - header]));
    }
    let rest = length - octets.len();
    octets.extend(coded(carrier, code, &data[..rest - header]));
    octets
}

/// An area of so many octets: foreign options and behind them one block, which
/// only a walk over all of it finds.
fn filled(carrier: u8, length: usize) -> Vec<u8> {
    let own = area(carrier, &[piece(carrier)]);
    [foreign(carrier, length - own.len()), own].concat()
}

/// Input of 40,960 octets: read; 40,961: 2. In carrier 3 no area of 40,961
/// octets is well framed, but 2 goes before 3.
fn add_areas(table: &mut Table) {
    for carrier in 1..=5 {
        let source = format!("RULES K13, input of 40,960 in carrier {carrier}");
        let done = Done::kept(1, &sheet(carrier, &[piece(carrier)]));
        let longest = filled(carrier, LONGEST);
        table.read(source, carrier, ROOM, &longest, &done);
        let source = format!("RULES K13, input of 40,961 in carrier {carrier}");
        let longer = match carrier {
            3 => [longest, vec![0]].concat(),
            _ => filled(carrier, LONGEST + 1),
        };
        table.read_refused(source, carrier, ROOM, &longer, 2);
    }
}

/// Sixteen of the largest records that carrier 2 can have, behind, between and
/// before faulty blocks: 40,960 octets of own options, and the largest sheet,
/// 36,775 octets. The records stand in falling priority.
fn add_own_options(table: &mut Table) {
    let alias = Resolver::full(0, N, A, P).block(2);
    let reserved_key = Resolver::full(1, N, A, &hex("ff ff 00 00")).block(2);
    let records = largest_records(2);
    let blocks = records.iter().rev().map(|record| record.block(2));
    let large: Vec<u8> = blocks
        .flat_map(|block| [block, alias.clone()].concat())
        .collect();
    let octets = [alias.repeat(32), large, alias.repeat(32), reserved_key].concat();
    assert_eq!(octets.len(), LONGEST);
    let done = Done {
        found: 97,
        discarded: 81,
        fault: fault(21),
        sheet: sheet(2, &records),
    };
    assert_eq!(done.sheet.len(), 36_775);
    let source = "RULES L1, 40,960 octets of own options";
    table.read(source, 2, 36_775, &octets, &done);
}

/// Sixteen records with the longest name, 63 addresses and 1,024 octets of
/// parameters, in rising priority.
fn largest_records(carrier: u8) -> Vec<Resolver> {
    let name = name_of(&[63, 63, 63, 61]);
    let (addresses, params) = (addresses(carrier, 63), params_of(1_024));
    (1..=16)
        .map(|priority| Resolver::full(priority, &name, &addresses, &params))
        .collect()
}

/// Sixteen of the largest records: carrier 1 cuts the joined data into 97
/// options, and carrier 2 has the largest sheet and the longest octets that are
/// written. Both are read, carrier 2 above, and written.
fn add_largest(table: &mut Table) {
    let records = largest_records(1);
    assert_eq!(area(1, &records).len(), 16 * 1_537 + 2 * 97);
    let source = "RULES L5, sixteen of the largest records of carrier 1";
    table.goes_round(source, 1, &records);
    let records = largest_records(2);
    let octets = area(2, &records);
    assert_eq!(octets.len(), 36_752);
    let source = "RULES L5, sixteen of the largest records of carrier 2 written";
    table.write(source, octets.len(), &sheet(2, &records), &octets);
}

/// Sheets of 40,960 and 40,961 octets. One record can tile the first, and what
/// is wrong is then its parameters (24), not the length. The second has wrong
/// letters too, but 2 goes before 40.
fn add_sheets(table: &mut Table) {
    let around = sheet(2, &[Resolver::full(1, N, A, &[])]).len();
    let of = |length: usize| sheet(2, &[Resolver::full(1, N, A, &params_of(length - around))]);
    let source = "RULES L1, a sheet of 40,960 octets that tiles";
    table.write_refused(source, ROOM, &of(LONGEST), 24);
    let source = "RULES L1, a sheet of 40,961 octets with RSW";
    let mut longer = of(LONGEST + 1);
    longer[2] = b'W';
    table.write_refused(source, ROOM, &longer, 2);
}

/// Carrier numbers that are none: 1, which goes before 2. And 2 looks at the
/// whole area, also behind a code 255 (RULES L1).
fn add_orders(table: &mut Table) {
    let source = "RULES T1, carrier 6 and 40,961 octets";
    table.read_refused(source, 6, ROOM, &[0; LONGEST + 1], 1);
    let mut ended = [area(1, &[piece(1)]), vec![255]].concat();
    ended.resize(LONGEST + 1, 0);
    let source = "RULES L1, 40,961 octets with code 255 among the first";
    table.read_refused(source, 1, ROOM, &ended, 2);
    for carrier in [0, 6, 7, 144, 255] {
        let source = format!("RULES R1, carrier {carrier} when reading");
        table.read_refused(source, carrier, ROOM, &k1(), 1);
    }
}

/// All of the above.
pub fn add(table: &mut Table) {
    add_areas(table);
    add_own_options(table);
    add_largest(table);
    add_sheets(table);
    add_orders(table);
}
