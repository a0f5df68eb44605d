//! Examples of RFC 8973, built into areas: its names, addresses and ports, and
//! its own options as foreign ones.

use super::layout::{
    address, area, coded, hex, name_at, option, param, sheet, two, Resolver, A4, FIRST_NAME, N,
};
use super::pieces::{k1, k1_sheet, k2, k2_sheet, k3, k3_sheet};
use super::table::{bad_name, Done, Table, ROOM};

/// dots.example.com, as Figure 4 shows it: 18 octets.
const DOTS: &[u8] = b"\x04dots\x07example\x03com\0";

/// A parameter port.
fn port(number: usize) -> Vec<u8> {
    param(3, &two(number))
}

/// RFC 8973 §5: one name and the two addresses 2001:db8:122:300::1 and ::2, with
/// the port 4646.
fn add_name_and_addresses(table: &mut Table) {
    for carrier in [2, 3, 5] {
        let source = format!("RFC 8973 §5 and Figure 4 in carrier {carrier}");
        let both = [address(carrier, 1), address(carrier, 2)].concat();
        let resolver = Resolver::full(1, DOTS, &both, &port(4_646));
        table.goes_round(source, carrier, &[resolver]);
    }
    let source = "RFC 8973 §5.1.2, an IPv4-mapped address stays";
    let mapped = hex("0000 0000 0000 0000 0000 ffff c000 0201");
    table.goes_round(source, 2, &[Resolver::full(1, DOTS, &mapped, &[])]);
    let source = "RFC 8973 §5.1.3, more than one name in one field";
    let fields = [&hex("00 01 00 24")[..], DOTS, N].concat();
    // The second name begins where the field should end, behind 18 octets.
    table.discarded(source, 2, &option(2, &fields), bad_name(8 + 18));
}

/// Its options 141, 142, 147 and 148 around K1, K2 and K3.
fn add_foreign(table: &mut Table) {
    let both = [address(2, 1), address(2, 2)].concat();
    let source = "RFC 8973 §5.1.1, §5.1.2, options 141 and 142 around K1";
    let octets = [coded(2, 141, DOTS), k1(), coded(2, 142, &both)].concat();
    table.read(source, 2, ROOM, &octets, &Done::kept(1, &k1_sheet()));
    let source = "RFC 8973 §5.2.1, §5.2.2, options 147 and 148 around K2";
    let octets = [coded(1, 147, DOTS), k2(), coded(1, 148, A4)].concat();
    table.read(source, 1, ROOM, &octets, &Done::kept(1, &k2_sheet()));
    let source = "RFC 8973 §5.1, its option codes as types around K3";
    let octets = [coded(3, 142, &both), k3(), coded(3, 141, DOTS)].concat();
    table.read(source, 3, ROOM, &octets, &Done::kept(1, &k3_sheet()));
}

/// Table 1: names, last octets of the addresses 2001:db8::1 and ::2, and ports,
/// in their order.
const TABLE_1: [(&[u8], u8, usize); 4] = [
    (b"\x01a\x07example\x03net\0", 1, 5_000),
    (b"\x01a\x07example\x03net\0", 1, 5_001),
    (b"\x01a\x07example\x03net\0", 1, 5_002),
    (b"\x01b\x07example\x03net\0", 2, 443),
];

/// The results of Table 1 as resolvers, the order as priority.
fn add_table_1(table: &mut Table) {
    let resolver = |((name, last, number), order): (&(&[u8], u8, usize), u16)| {
        let address = [&hex("2001 0db8")[..], &[0; 11], &[*last]].concat();
        Resolver::full(order, name, &address, &port(*number))
    };
    let resolvers: Vec<Resolver> = TABLE_1.iter().zip(1..).map(resolver).collect();
    for carrier in [2, 3, 5] {
        let source = format!("RFC 8973 Table 1 in carrier {carrier}");
        table.goes_round(source, carrier, &resolvers);
    }
}

/// Names of RFC 8973 Figures 8 and 9 and §8.1, and whether they are acceptable.
/// RULES N2 accepts no underscore and no wildcard, which are the first octet of
/// their label.
const NAMES: [(&[u8], bool); 5] = [
    (b"\x0c_dots-signal\x04_udp\x07example\x03net\0", false),
    (b"\x0f_dots-call-home\x04_tcp\x07example\x03net\0", false),
    (b"\x01*\x07example\x03com\0", false),
    (b"\x06dots-1\x07example\x03com\0", true),
    (b"\x06signal\x07example\x03net\0", true),
];

/// Those names in every carrier.
fn add_names(table: &mut Table) {
    for (name, acceptable) in NAMES {
        for carrier in 1..=5 {
            let resolver = [Resolver::small(carrier, 1, name)];
            let source = format!("RFC 8973, one of its names in carrier {carrier}");
            if acceptable {
                table.goes_round(source, carrier, &resolver);
                continue;
            }
            // Behind the label's length in wire form, first of all in text.
            let place = name_at(carrier, 1) + if carrier < 4 { 1 } else { 0 };
            let octets = area(carrier, &resolver);
            table.discarded(source.clone(), carrier, &octets, bad_name(place));
            let octets = sheet(carrier, &resolver);
            table.write_refused(source, ROOM, &octets, bad_name(FIRST_NAME + 1));
        }
    }
}

/// All of the above.
pub fn add(table: &mut Table) {
    add_name_and_addresses(table);
    add_foreign(table);
    add_table_1(table);
    add_names(table);
}
