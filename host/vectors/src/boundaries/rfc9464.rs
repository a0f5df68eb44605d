//! The examples of RFC 9464 §A as runs of attributes in the layout of its
//! Figure 1. The other attributes have the types of RFC 7296 and RFC 8598.

use super::layout::{coded, hex, sheet, Resolver};
use super::table::{bad_name, fault, Done, Table, ROOM};

const INTERNAL_IP6_ADDRESS: u16 = 8;
const INTERNAL_IP6_DNS: u16 = 10;
const INTERNAL_DNS_DOMAIN: u16 = 25;
const ENCDNS_DIGEST_INFO: u16 = 29;

/// ENCDNS_IP6(1, 1, 15, (2001:db8:99:88:77:66:55:44), "doh.example.com",
/// (alpn=h2 dohpath=/dns-query{?dns})), 62 octets behind the header.
fn resolver() -> Vec<u8> {
    [
        &hex("00 1c 00 3e 00 01 01 0f")[..],
        &preferred_address(),
        b"doh.example.com",
        &hex("00 01 00 03 02 68 32"),
        &hex("00 07 00 10"),
        b"/dns-query{?dns}",
    ]
    .concat()
}

/// 2001:db8:99:88:77:66:55:44.
fn preferred_address() -> Vec<u8> {
    hex("2001 0db8 0099 0088 0077 0066 0055 0044")
}

/// The sheet of that one resolver.
fn resolver_sheet() -> Vec<u8> {
    [
        &hex("52 53 56 00 01 05 01 00 01 00 00 00 00 01 11")[..],
        b"\x03doh\x07example\x03com\0",
        &[1],
        &preferred_address(),
        &hex("00 1b 00 01 00 03 02 68 32 00 07 00 10"),
        b"/dns-query{?dns}",
    ]
    .concat()
}

/// An attribute of a configuration payload.
fn attribute(code: u16, data: &[u8]) -> Vec<u8> {
    coded(5, code, data)
}

/// INTERNAL_IP6_ADDRESS(2001:db8:0:1:2:3:4:5/64).
fn internal_address() -> Vec<u8> {
    let data = hex("2001 0db8 0000 0001 0002 0003 0004 0005 40");
    attribute(INTERNAL_IP6_ADDRESS, &data)
}

/// ENCDNS_DIGEST_INFO(0, SHA2-256, 8b6e7a5971cc6bb0b4db5a71...), where zeros
/// stand for what the example leaves out.
fn digest() -> Vec<u8> {
    let data = [hex("01 00 00 02 8b6e7a5971cc6bb0b4db5a71"), vec![0; 20]].concat();
    attribute(ENCDNS_DIGEST_INFO, &data)
}

/// INTERNAL_IP6_ADDRESS() and INTERNAL_IP6_DNS() of the requests.
fn requested() -> Vec<u8> {
    [
        attribute(INTERNAL_IP6_ADDRESS, &[]),
        attribute(INTERNAL_IP6_DNS, &[]),
    ]
    .concat()
}

/// The replies, which yield the resolver.
fn add_replies(table: &mut Table) {
    let done = Done::kept(1, &resolver_sheet());
    let domain = attribute(INTERNAL_DNS_DOMAIN, b"example.com");
    for (what, octets) in [
        (
            "A.1, a CFG_REPLY",
            [internal_address(), resolver(), digest()],
        ),
        (
            "A.3, a CFG_REPLY with a domain",
            [internal_address(), resolver(), domain],
        ),
    ] {
        let source = format!("RFC 9464 §{what}");
        let octets = octets.concat();
        table.read_in_rooms(&source, 5, &octets, &done);
        let none = Done::kept(0, &sheet(4, &[]));
        table.read(source + ", read as carrier 4", 4, ROOM, &octets, &none);
    }
    let source = "RFC 9464 §A.1, the resolver alone";
    table.read_in_rooms(source, 5, &resolver(), &done);
    table.write_in_rooms(source, &resolver_sheet(), &resolver());
}

/// The requests, whose attributes are no whole records: without data
/// (RULES W7), without a name, without an address, and with neither.
fn add_requests(table: &mut Table) {
    let own = |data: &[u8]| attribute(28, data);
    let algorithms = attribute(ENCDNS_DIGEST_INFO, &hex("03 00 00 02 00 03 00 04"));
    let by_address = [hex("00 01 01 00"), preferred_address()].concat();
    let by_name = [&hex("00 01 00 0f")[..], b"doh.example.com"].concat();
    let by_protocol = hex("00 01 00 00 00 01 00 04 03 64 6f 74");
    let domain = attribute(INTERNAL_DNS_DOMAIN, &[]);
    // The empty names stand behind header, head and, in the first, an address.
    for (what, octets, fault) in [
        (
            "A.1, a CFG_REQUEST",
            [own(&[]), algorithms].concat(),
            fault(20),
        ),
        (
            "A.2, a resolver by its address",
            own(&by_address),
            bad_name(4 + 4 + 16),
        ),
        ("A.2, a resolver by its name", own(&by_name), fault(23)),
        (
            "A.2, a transport protocol",
            own(&by_protocol),
            bad_name(4 + 4),
        ),
        (
            "A.3, a CFG_REQUEST for a domain",
            [own(&[]), domain].concat(),
            fault(20),
        ),
    ] {
        let source = format!("RFC 9464 §{what}");
        let octets = [requested(), octets].concat();
        table.discarded(source, 5, &octets, fault);
    }
}

/// RFC 9464 §3.1: an example of a valid name is doh1.example.com, and addresses
/// of both families stand in one payload, each for its own carrier.
fn add_both_families(table: &mut Table) {
    let of = |carrier: u8, address: &[u8]| {
        let name = b"\x04doh1\x07example\x03com\0";
        let resolver = Resolver::full(1, name, address, &hex("00 01 00 03 02 68 32"));
        (resolver.block(carrier), sheet(carrier, &[resolver]))
    };
    let (four, four_sheet) = of(4, &[198, 51, 100, 1, 203, 0, 113, 7]);
    let (six, six_sheet) = of(5, &preferred_address());
    let source = "RFC 9464 §3.1, attributes of both families";
    for octets in [[four.clone(), six.clone()], [six, four]] {
        let octets = octets.concat();
        table.read(source, 4, ROOM, &octets, &Done::kept(1, &four_sheet));
        table.read(source, 5, ROOM, &octets, &Done::kept(1, &six_sheet));
    }
}

/// All of the above.
pub fn add(table: &mut Table) {
    add_replies(table);
    add_requests(table);
    add_both_families(table);
}
