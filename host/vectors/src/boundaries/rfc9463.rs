//! Examples of RFC 9463, built into areas. It shows a name in octets but no
//! whole option; its addresses, ports and lengths are laid out in the five
//! carriers.

use super::layout::{address, area, hex, param, sheet, two, Resolver, A, A4, N};
use super::table::{Done, Table, ROOM};

/// A parameter alpn of these strings.
fn alpn(strings: &[&str]) -> Vec<u8> {
    let value: Vec<u8> = strings
        .iter()
        .flat_map(|string| [&[string.len() as u8], string.as_bytes()].concat())
        .collect();
    param(1, &value)
}

/// A parameter port.
fn port(number: usize) -> Vec<u8> {
    param(3, &two(number))
}

/// RFC 9463 §3.1.5, §4.1: DoT with port 853, DoH with port 443 and a relative
/// URI template, DoQ with port 853, at one address, by priority.
fn add_protocols(table: &mut Table) {
    let dot = [alpn(&["dot"]), port(853)].concat();
    let dohpath = param(7, b"/dns-query{?dns}");
    let doh = [alpn(&["h2", "h3"]), port(443), dohpath].concat();
    let doq = [alpn(&["doq"]), port(853)].concat();
    for carrier in 1..=5 {
        let with = |priority, params| Resolver::full(priority, N, &address(carrier, 1), params);
        let resolvers = [with(1, &dot), with(2, &doh), with(3, &doq)];
        let source = format!("RFC 9463 §3.1.5, §4.1, DoT, DoH, DoQ in carrier {carrier}");
        table.goes_round(source.clone(), carrier, &resolvers);
        let mut turned = resolvers.clone();
        turned.reverse();
        let found = if carrier == 1 { 1 } else { 3 };
        let done = Done::kept(found, &sheet(carrier, &resolvers));
        let source = source + ", largest priority number first";
        table.read(source, carrier, ROOM, &area(carrier, &turned), &done);
    }
}

/// RFC 9463 §4.1, §5.1, §6.1, Figure 2: the name alone. Option-length is ADN
/// Length + 4, and DNR Instance Data Length is ADN Length + 3.
fn add_name_only(table: &mut Table) {
    let source = "RFC 9463 §4.1, Figures 1 and 2, ADN only";
    let octets = [&hex("00 90 00 16 00 01 00 12")[..], N].concat();
    let whole = [&hex("52 53 56 00 01 02 01 00 01 00 00 00 00 00 12")[..], N].concat();
    table.read_in_rooms(source, 2, &octets, &Done::kept(1, &whole));
    table.write_in_rooms(source, &whole, &octets);
    // A draft beside it calls 18 the Option-length.
    let source = "a draft beside RFC 9463, an Option-length of 18 around the name alone";
    table.discarded(source, 2, &[&hex("00 90 00 12")[..], N].concat(), 20);
    let source = "RFC 9463 §5.1, Figures 4 and 5, three instances";
    let resolvers = [
        Resolver::named(1, N),
        Resolver::full(1, N, A4, &[]),
        Resolver::full(2, N, &[10, 0, 0, 1, 192, 168, 1, 1], &alpn(&["dot"])),
    ];
    table.goes_round(source, 1, &resolvers);
}

/// RFC 9463 §3.1.3, §4.1: a Link-Local address, a ULA and a GUA, ordered by
/// preference; and §4.2: those that the client must discard.
fn add_addresses(table: &mut Table) {
    let kept = [
        hex("fe80 0000 0000 0000 0000 0000 0000 0001"),
        hex("fd00 0000 0000 0000 0000 0000 0000 0053"),
        A.to_vec(),
    ];
    let all_nodes = hex("ff02 0000 0000 0000 0000 0000 0000 0001");
    let loopback = hex("0000 0000 0000 0000 0000 0000 0000 0001");
    let carried = [&kept[0][..], &all_nodes, &kept[1], &loopback, &kept[2]].concat();
    for carrier in [2, 3, 5] {
        let source = format!("RFC 9463 §3.1.3, three kinds of address in carrier {carrier}");
        let resolver = [Resolver::full(1, N, &kept.concat(), &alpn(&["dot"]))];
        table.goes_round(source, carrier, &resolver);
        let source = format!("RFC 9463 §4.2, addresses to discard in carrier {carrier}");
        let octets = area(carrier, &[Resolver::full(1, N, &carried, &alpn(&["dot"]))]);
        let done = Done::kept(1, &sheet(carrier, &resolver));
        table.read(source, carrier, ROOM, &octets, &done);
    }
}

/// RFC 9463 §3.1.8: the parameters do not include ipv4hint or ipv6hint. §6.1: a
/// Lifetime of all one bits is infinity, of zero no longer to be used.
fn add_checks(table: &mut Table) {
    let hint = [alpn(&["dot"]), param(4, A4)].concat();
    let source = "RFC 9463 §3.1.8, ipv4hint beside alpn";
    table.discarded(source, 2, &area(2, &[Resolver::full(1, N, A, &hint)]), 27);
    let hint = [alpn(&["dot"]), param(6, A)].concat();
    let source = "RFC 9463 §3.1.8, ipv6hint beside alpn";
    table.discarded(source, 2, &area(2, &[Resolver::full(1, N, A, &hint)]), 27);
    for lifetime in [0, 1_800, u32::MAX] {
        let source = format!("RFC 9463 §6.1, Lifetime {lifetime}");
        let resolver = Resolver::full(1, N, A, &alpn(&["doq"])).living(lifetime);
        table.goes_round(source, 3, &[resolver]);
    }
}

/// All of the above.
pub fn add(table: &mut Table) {
    add_protocols(table);
    add_name_only(table);
    add_addresses(table);
    add_checks(table);
}
