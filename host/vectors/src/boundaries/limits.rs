//! The limits of a record and of a sheet: 63 addresses, 1,024 octets of
//! parameters, 16 records (RULES L2 to L4, K13).

use super::layout::{
    address, addresses, area, letter_name, options_162, params_of, sheet, width, Resolver, N, P,
};
use super::table::{fault, Done, Table, ROOM};

/// An address of the carrier's width that a reading drops.
fn multicast(carrier: u8) -> Vec<u8> {
    let mut address = address(carrier, 1);
    address[0] = if width(carrier) == 4 { 224 } else { 0xff };
    address
}

/// 63 addresses: kept; 64: fault 24. In carrier 1 the 8-bit length cannot
/// carry 64 (RULES L3, C1).
fn add_addresses(table: &mut Table) {
    for carrier in 1..=5 {
        let with = |count: u8| Resolver::full(1, N, &addresses(carrier, count), P);
        let source = format!("RULES K13, 63 addresses in carrier {carrier}");
        table.goes_round(source, carrier, &[with(63)]);
        let source = format!("RULES K13, 64 addresses in carrier {carrier}");
        if carrier != 1 {
            table.discarded(source.clone(), carrier, &area(carrier, &[with(64)]), 24);
        }
        table.write_refused(source, ROOM, &sheet(carrier, &[with(64)]), 24);
    }
    for length in 253..=255 {
        let source = format!("RULES R23, address length {length} in carrier 1");
        let resolver = Resolver::full(1, N, &vec![9; length], P);
        table.discarded(source, 1, &area(1, &[resolver]), 23);
    }
}

/// The 63 are counted as carried: 62 to be dropped and one good address give
/// that one, 63 and one give 24 (RULES L3).
fn add_addresses_as_carried(table: &mut Table) {
    for carrier in 1..=5 {
        let good = address(carrier, 9);
        let with = |count: usize| {
            let list = [multicast(carrier).repeat(count), good.clone()].concat();
            Resolver::full(1, N, &list, P)
        };
        let source = format!("RULES L3, 62 dropped and 1 kept in carrier {carrier}");
        let kept = sheet(carrier, &[Resolver::full(1, N, &good, P)]);
        let octets = area(carrier, &[with(62)]);
        table.read(source, carrier, kept.len(), &octets, &Done::kept(1, &kept));
        if carrier != 1 {
            let source = format!("RULES L3, 64 as carried in carrier {carrier}");
            table.discarded(source, carrier, &area(carrier, &[with(63)]), 24);
        }
    }
}

/// 1,024 octets of parameters are good, 1,025 are 24, also where they do not
/// tile (24 goes before 26).
fn add_params(table: &mut Table) {
    for carrier in 1..=5 {
        let with = |params: &[u8]| [Resolver::full(1, N, &address(carrier, 1), params)];
        let source = format!("RULES L4, 1,024 octets of parameters in carrier {carrier}");
        table.goes_round(source, carrier, &with(&params_of(1_024)));
        let source = format!("RULES L4, 1,025 octets of parameters in carrier {carrier}");
        let over = with(&params_of(1_025));
        table.discarded(source.clone(), carrier, &area(carrier, &over), 24);
        table.write_refused(source, ROOM, &sheet(carrier, &over), 24);
        let source = format!("RULES T2, 24 before 26 in carrier {carrier}");
        table.discarded(source, carrier, &area(carrier, &with(&[0xff; 1_025])), 24);
    }
}

/// Resolvers named a, b, c and so on, with priorities from 1.
fn rising(carrier: u8, count: u8) -> Vec<Resolver> {
    (0..count)
        .map(|index| {
            let name = letter_name(b'a' + index);
            Resolver::small(carrier, u16::from(index) + 1, &name)
        })
        .collect()
}

/// Sixteen records kept: done; seventeen: 4, which goes before 5 (RULES T1).
/// In carrier 1 they stand in one block.
fn add_records(table: &mut Table) {
    for carrier in 1..=5 {
        let source = format!("RULES K13, sixteen records in carrier {carrier}");
        table.goes_round(source.clone(), carrier, &rising(carrier, 16));
        let mut falling = rising(carrier, 16);
        falling.reverse();
        let found = if carrier == 1 { 1 } else { 16 };
        let done = Done::kept(found, &sheet(carrier, &rising(carrier, 16)));
        let source = source + ", falling priorities";
        table.read(source, carrier, ROOM, &area(carrier, &falling), &done);
        let source = format!("RULES K13, seventeen records in carrier {carrier}");
        let seventeen = rising(carrier, 17);
        for room in [0, ROOM] {
            let octets = area(carrier, &seventeen);
            table.read_refused(source.clone(), carrier, room, &octets, 4);
            table.write_refused(source.clone(), room, &sheet(carrier, &seventeen), 4);
        }
    }
}

/// Only records that are kept count towards 16: a seventeenth block with
/// priority 0 is discarded alone in carriers 2 to 5. In carrier 1 it is an
/// instance of the one block, which is discarded whole (RULES T2).
fn add_records_kept(table: &mut Table) {
    for carrier in 2..=5 {
        let source = format!("RULES R4, sixteen kept and one discarded in carrier {carrier}");
        let mut blocks = rising(carrier, 17);
        blocks[8].priority = 0;
        let octets = area(carrier, &blocks);
        blocks.remove(8);
        let done = Done {
            found: 17,
            discarded: 1,
            fault: fault(21),
            sheet: sheet(carrier, &blocks),
        };
        table.read(source, carrier, done.sheet.len(), &octets, &done);
    }
    for place in [0, 15, 16, 19] {
        let mut instances = rising(1, 20);
        instances[place].priority = 0;
        let source = format!("RULES T2, twenty instances with a fault in number {place} from 0");
        table.discarded(source, 1, &area(1, &instances), 21);
    }
    let instances: Vec<u8> = rising(1, 20)
        .iter()
        .flat_map(|resolver| resolver.block(1))
        .collect();
    let source = "RULES T2, twenty instances and one octet more";
    let octets = options_162(&[instances, vec![0]].concat());
    table.discarded(source, 1, &octets, 20);
}

/// All of the above.
pub fn add(table: &mut Table) {
    add_addresses(table);
    add_addresses_as_carried(table);
    add_params(table);
    add_records(table);
    add_records_kept(table);
}
