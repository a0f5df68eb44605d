//! Each of the wrong readings that were met before (RULES X1 to X6). Cuts of
//! options 162 stand with carrier 1, and zeros behind the name with carrier 3.

use super::layout::{
    address, area, coded, hex, letter_name, option, sheet, width, Resolver, A, A4, N, P,
};
use super::pieces::{k3, k3_sheet, k8_joined};
use super::table::{Done, Table, ROOM};

/// RULES X1: K3's zeros taken as an address length of 0. K3 is read with
/// another K3 and a foreign option around it.
fn add_zeros(table: &mut Table) {
    let named = Resolver::named(1, N).living(3_600);
    let source = "RULES X1, K3's zeros, K3 twice";
    table.goes_round(source, 3, &[named.clone(), named]);
    let source = "RULES X1, K3's zeros, a foreign option behind";
    let octets = [k3(), coded(3, 5, &[0; 6])].concat();
    table.read(source, 3, ROOM, &octets, &Done::kept(1, &k3_sheet()));
}

/// RULES X2: the fixed octets taken off L by the walk and again by the
/// instance, so that the last parameter, the port, disappears. The port is the
/// last parameter in each carrier, with and without another one before it.
fn add_port(table: &mut Table) {
    let port = hex("00 03 00 02 03 55");
    for carrier in 1..=5 {
        for params in [port.clone(), [P, &port].concat()] {
            let resolver = Resolver::full(1, N, &address(carrier, 1), &params);
            let source = format!("RULES X2, the port, carrier {carrier}");
            table.goes_round(source.clone(), carrier, std::slice::from_ref(&resolver));
            // Two of them, so that a length that is too short or too long
            // also shows in the second.
            table.goes_round(source, carrier, &[resolver.clone(), resolver]);
        }
    }
}

/// RULES X3: each option 162 read alone instead of joined. Two options that are
/// whole instances of their own, and two that are not.
fn add_joined(table: &mut Table) {
    let source = "RULES X3, options 162 read alone";
    let first = Resolver::full(2, &letter_name(b'a'), A4, P);
    let second = Resolver::named(1, &letter_name(b'b'));
    let ordered = sheet(1, &[second.clone(), first.clone()]);
    let apart = [option(1, &first.block(1)), option(1, &second.block(1))].concat();
    table.read(source, 1, ROOM, &apart, &Done::kept(1, &ordered));
    // Read alone, the second option would be a good block and be kept; joined,
    // the one block has the first instance's fault.
    let alias = Resolver::full(0, &letter_name(b'a'), A4, P);
    let apart = [option(1, &alias.block(1)), option(1, &second.block(1))].concat();
    table.discarded(source, 1, &apart, 21);
    // The halves of K8 in the wrong order: L is then a run of zeros.
    let joined = k8_joined();
    let exchanged = [option(1, &joined[255..]), option(1, &joined[..255])].concat();
    table.discarded(source, 1, &exchanged, 20);
}

/// Priorities in the order of arrival, and which comes first, second and so on
/// in the sheet. 256 is above 255 though its low octet is less.
const ORDERS: [(&[u16], &[usize]); 6] = [
    (&[5, 1, 5], &[1, 0, 2]),
    (&[1, 2], &[0, 1]),
    (&[2, 1], &[1, 0]),
    (&[7, 7, 7, 7], &[0, 1, 2, 3]),
    (&[9, 3, 65_535, 3, 1, 9, 1], &[4, 6, 1, 3, 0, 5, 2]),
    (&[256, 255, 1, 511, 512], &[2, 1, 0, 3, 4]),
];

/// RULES X4: larger priority first, or equal priorities exchanged. The orders
/// above in each carrier.
fn add_priorities(table: &mut Table) {
    for carrier in 1..=5 {
        for (priorities, order) in ORDERS {
            let named = |(priority, letter): (&u16, u8)| {
                Resolver::small(carrier, *priority, &letter_name(letter))
            };
            let arrived: Vec<Resolver> = priorities.iter().zip(b'a'..).map(named).collect();
            let ordered: Vec<Resolver> = order.iter().map(|at| arrived[*at].clone()).collect();
            let (read, written) = (area(carrier, &arrived), area(carrier, &ordered));
            let sheet = sheet(carrier, &ordered);
            let found = if carrier == 1 { 1 } else { arrived.len() };
            let source = format!("RULES X4, priorities {priorities:?}");
            let source = format!("{source} in carrier {carrier}");
            table.read(
                source.clone(),
                carrier,
                ROOM,
                &read,
                &Done::kept(found, &sheet),
            );
            table.write(source, ROOM, &sheet, &written);
        }
    }
}

/// Addresses that are dropped when read: the first and last of each range.
fn dropped(carrier: u8) -> Vec<Vec<u8>> {
    let all: &[&str] = match width(carrier) {
        4 => &["7f000000", "7f000001", "7fffffff", "e0000000", "efffffff"],
        _ => &[
            "00000000 00000000 00000000 00000001",
            "ff000000 00000000 00000000 00000000",
            "ff020000 00000000 00000000 00000001",
            "ffffffff ffffffff ffffffff ffffffff",
        ],
    };
    all.iter().map(|text| hex(text)).collect()
}

/// Their nearest neighbours, and others that a reader might drop but
/// RULES A1 does not.
fn not_dropped(carrier: u8) -> Vec<Vec<u8>> {
    let all: &[&str] = match width(carrier) {
        4 => &[
            "7effffff", "80000000", "dfffffff", "f0000000", "ffffffff", "00000000", "a9fe0001",
        ],
        _ => &[
            "00000000 00000000 00000000 00000000",
            "00000000 00000000 00000000 00000002",
            "00000000 00000000 00000000 00000101",
            "01000000 00000000 00000000 00000001",
            "feffffff ffffffff ffffffff ffffffff",
            "fe800000 00000000 00000000 00000001",
            "00000000 00000000 0000ffff 7f000001",
            "00000000 00000000 0000ffff e0000001",
        ],
    };
    all.iter().map(|text| hex(text)).collect()
}

/// RULES X5: the writer drops a loopback address that the reader should have
/// dropped. The reader drops it, and the writer refuses it with 25, also
/// where another address would stay (RULES R25).
fn add_dropped(table: &mut Table) {
    for carrier in 1..=5 {
        let good = address(carrier, 1);
        let with = |addresses: &[u8]| [Resolver::full(1, N, addresses, P)];
        let kept = Done::kept(1, &sheet(carrier, &with(&good)));
        let source = format!("RULES X5, loopback and multicast in carrier {carrier}");
        for bad in dropped(carrier) {
            table.discarded(source.clone(), carrier, &area(carrier, &with(&bad)), 25);
            table.write_refused(source.clone(), ROOM, &sheet(carrier, &with(&bad)), 25);
            for addresses in [[&bad, &good[..]].concat(), [&good, &bad[..]].concat()] {
                let both = with(&addresses);
                table.read(source.clone(), carrier, ROOM, &area(carrier, &both), &kept);
                table.write_refused(source.clone(), ROOM, &sheet(carrier, &both), 25);
            }
        }
        let source = format!("RULES A1, addresses that stay in carrier {carrier}");
        let stay = not_dropped(carrier).concat();
        table.goes_round(source.clone(), carrier, &with(&stay));
        // All kinds at once: those that stay keep their order.
        let mixed: Vec<u8> = not_dropped(carrier)
            .into_iter()
            .zip(dropped(carrier).into_iter().cycle())
            .flat_map(|(stays, goes)| [goes, stays].concat())
            .collect();
        let done = Done::kept(1, &sheet(carrier, &with(&stay)));
        table.read(source, carrier, ROOM, &area(carrier, &with(&mixed)), &done);
    }
}

/// RULES X6: a mandatory list checked for order only, so that a key that is not
/// there passes. Lists before alpn and port, in carrier 2: read and written.
fn add_mandatory(table: &mut Table) {
    let rest = [P, &hex("00 03 00 02 03 55")].concat();
    for (list, good) in [
        ("00 00 00 02 00 01", true),
        ("00 00 00 02 00 03", true),
        ("00 00 00 04 00 01 00 03", true),
        ("00 00 00 02 00 02", false),
        ("00 00 00 02 00 07", false),
        ("00 00 00 04 00 01 00 02", false),
        ("00 00 00 04 00 02 00 03", false),
        ("00 00 00 06 00 01 00 03 00 05", false),
        ("00 00 00 04 00 03 00 01", false),
        ("00 00 00 04 00 01 00 01", false),
        ("00 00 00 02 00 00", false),
        ("00 00 00 04 00 00 00 01", false),
        ("00 00 00 00", false),
        ("00 00 00 03 00 01 00", false),
        ("00 00 00 01 01", false),
    ] {
        let resolvers = [Resolver::full(1, N, A, &[hex(list), rest.clone()].concat())];
        let source = format!("RULES X6, mandatory list {list}");
        if good {
            table.goes_round(source, 2, &resolvers);
        } else {
            table.discarded(source.clone(), 2, &area(2, &resolvers), 28);
            table.write_refused(source, ROOM, &sheet(2, &resolvers), 28);
        }
    }
}

/// All of the above.
pub fn add(table: &mut Table) {
    add_zeros(table);
    add_port(table);
    add_joined(table);
    add_priorities(table);
    add_dropped(table);
    add_mandatory(table);
}
