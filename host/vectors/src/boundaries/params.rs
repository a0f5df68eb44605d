//! Parameters and the order of their faults (RULES P1 to P8, T3).

use super::layout::{address, area, hex, param, sheet, Resolver, A, N, P};
use super::table::{fault, Done, Table, ROOM};

/// Parameters with a fault. Where alpn "dot" stands beside others it is P.
const BAD: [(&str, &str, usize); 40] = [
    ("one octet", "00", 26),
    ("three octets", "0005 00", 26),
    ("a value past the end", "0005 0001", 26),
    ("one octet behind P", "0001 0004 03646f74 00", 26),
    ("P twice", "0001 0004 03646f74 0001 0004 03646f74", 26),
    ("falling keys", "0005 0000 0003 0002 0355", 26),
    ("key 65535", "ffff 0000", 26),
    ("key 65535 behind 65534", "fffe 0000 ffff 0000", 26),
    ("ipv4hint", "0004 0004 c0000201", 27),
    (
        "ipv6hint",
        "0006 0010 20010db8 00000000 00000000 00000001",
        27,
    ),
    ("ipv4hint without a value", "0004 0000", 27),
    ("both hints", "0004 0000 0006 0000", 27),
    ("alpn without a string", "0001 0000", 28),
    ("alpn with an empty string", "0001 0001 00", 28),
    ("alpn with a last empty string", "0001 0004 026832 00", 28),
    ("alpn past its value", "0001 0003 036832", 28),
    ("alpn short of its value", "0001 0003 016832", 28),
    (
        "alpn into the next value",
        "0001 0002 0368 0003 0002 0355",
        28,
    ),
    (
        "P, no-default-alpn with a value",
        "0001 0004 03646f74 0002 0001 00",
        28,
    ),
    ("a port without a value", "0003 0000", 28),
    ("a port of one octet", "0003 0001 35", 28),
    ("a port of three octets", "0003 0003 000355", 28),
    // The whole list is looked at for 26, then for 27, then for 28 (RULES T3).
    ("key 4, then an overrun", "0004 0000 0005 0001", 26),
    ("a bad port, then key 6", "0003 0000 0006 0000", 27),
    ("a bad port, then an octet", "0003 0000 00", 26),
    ("all three", "0002 0001 00 0004 0000 ffff 0000", 26),
    ("an absent key, then key 6", "0000 0002 0005 0006 0000", 27),
    ("an absent key, then an octet", "0000 0002 0005 00", 26),
    (
        "an absent key, then key 65535",
        "0000 0002 0005 0007 0000 ffff 0000",
        26,
    ),
    // A mandatory list that names hints or the reserved key (RULES P4).
    (
        "list of key 4, which is there",
        "0000 0002 0004 0004 0000",
        27,
    ),
    (
        "list of key 4 before P",
        "0000 0002 0004 0001 0004 03646f74",
        28,
    ),
    (
        "list of key 65535 before P",
        "0000 0002 ffff 0001 0004 03646f74",
        28,
    ),
    // no-default-alpn without alpn (RULES P6, RFC 9460 §7.1.1), and what goes
    // before it (RULES T3).
    ("key 2 without alpn", "0002 0000", 28),
    ("key 2 with a value and without alpn", "0002 0001 00", 28),
    (
        "list of key 2, which is there without alpn",
        "0000 0002 0002 0002 0000",
        28,
    ),
    (
        "key 2 without alpn, then a port",
        "0002 0000 0003 0002 0355",
        28,
    ),
    ("key 2 without alpn, then key 4", "0002 0000 0004 0000", 27),
    (
        "key 2 without alpn, then key 65535",
        "0002 0000 ffff 0000",
        26,
    ),
    ("key 2 without alpn, then an octet", "0002 0000 00", 26),
    ("key 2, then P", "0002 0000 0001 0004 03646f74", 26),
];

/// Good parameters (RULES P1, P4 to P8).
const GOOD: [(&str, &str); 9] = [
    ("no parameters", ""),
    ("port 0", "0003 0002 0000"),
    ("port 65535", "0003 0002 ffff"),
    ("P and no-default-alpn", "0001 0004 03646f74 0002 0000"),
    (
        "list of keys 1 and 2, P and no-default-alpn",
        "0000 0004 0001 0002 0001 0004 03646f74 0002 0000",
    ),
    ("two strings of alpn", "0001 0006 026832 026833"),
    ("key 5", "0005 0003 010203"),
    (
        "keys 7, 8 and 65534 without values",
        "0007 0000 0008 0000 fffe 0000",
    ),
    ("keys 255 and 256", "00ff 0000 0100 0000"),
];

/// A mandatory list of these keys, and behind it parameters without values.
fn listing(list: &[u16], keys: &[u16]) -> Vec<u8> {
    let list: Vec<u8> = list.iter().flat_map(|key| key.to_be_bytes()).collect();
    let rest = keys.iter().flat_map(|key| param(*key, &[]));
    param(0, &list).into_iter().chain(rest).collect()
}

/// Lists of 170 keys that are wrong in one place: what they show, the place and
/// the keys from there on. The other keys, and the parameters, are those from
/// 384 to 65,280 in steps of 384.
const WRONG: [(&str, usize, &[u16]); 8] = [
    ("the first less by 1", 0, &[383]),
    ("the first 0", 0, &[0]),
    ("the first two exchanged", 0, &[768, 384]),
    ("one in the middle less by 256", 84, &[32_384]),
    ("two in the middle exchanged", 84, &[33_024, 32_640]),
    ("the last more by 1", 169, &[65_281]),
    ("the last repeated", 168, &[65_280, 65_280]),
    ("the last two exchanged", 168, &[65_280, 64_896]),
];

/// The longest mandatory lists, in carrier 2: 4 + 2 × 170 octets and 4 × 170 of
/// the keys themselves are 1,024 (RULES P4, L4), and with a key more 1,030.
fn add_long_lists(table: &mut Table) {
    let with = |params: &[u8]| [Resolver::full(1, N, A, params)];
    let all: Vec<u16> = (1..=170).map(|count| 384 * count).collect();
    let params = listing(&all, &all);
    assert_eq!(params.len(), 1_024);
    table.goes_round("RULES P4, a list of 170 keys", 2, &with(&params));
    let mut refused = |what: &str, params: &[u8], fault| {
        let source = format!("RULES P4, a list of {what}");
        table.discarded(source.clone(), 2, &area(2, &with(params)), fault);
        table.write_refused(source, ROOM, &sheet(2, &with(params)), fault);
    };
    for (what, place, keys) in WRONG {
        let behind = &all[place + keys.len()..];
        let list = [&all[..place], keys, behind].concat();
        refused(&format!("170 keys, {what}"), &listing(&list, &all), 28);
    }
    let more = [&all[..], &[65_281]].concat();
    refused("171 keys", &listing(&more, &more), 24);
}

/// no-default-alpn without alpn beside a resolver that has both: alpn in other
/// parameters does not count (RULES P6). Of two blocks the bad one is discarded;
/// in carrier 1 both are instances of one (RULES W9, T2). A sheet with the bad one
/// is refused whole, whatever the room (RULES T5, T6); one with alpn is written.
fn add_no_default_alpn(table: &mut Table) {
    let alone = hex("0002 0000");
    let both = [P, &alone].concat();
    for carrier in 1..=5 {
        let with = |params: &[u8]| Resolver::full(1, N, &address(carrier, 1), params);
        let (good, bad) = (with(&both), with(&alone));
        let (first, last) = ([bad.clone(), good.clone()], [good.clone(), bad.clone()]);
        let done = match carrier {
            1 => Done::discarded(1, 28),
            _ => Done {
                found: 2,
                discarded: 1,
                fault: fault(28),
                sheet: sheet(carrier, std::slice::from_ref(&good)),
            },
        };
        let source = format!("RULES P6, key 2 without alpn in one of two, carrier {carrier}");
        table.read_in_rooms(&source, carrier, &area(carrier, &first), &done);
        table.read(source.clone(), carrier, ROOM, &area(carrier, &last), &done);
        for resolvers in [&first, &last] {
            table.write_refused(source.clone(), ROOM, &sheet(carrier, resolvers), 28);
        }
        let source = format!("RULES P6, a sheet with key 2 alone, carrier {carrier}");
        table.write_refused(source, 0, &sheet(carrier, &[bad]), 28);
        let source = format!("RULES P6, a sheet with keys 1 and 2, carrier {carrier}");
        let octets = area(carrier, std::slice::from_ref(&good));
        table.write_in_rooms(&source, &sheet(carrier, &[good]), &octets);
    }
}

/// The parameters above, read and written in every carrier, and long lists.
pub fn add(table: &mut Table) {
    for carrier in 1..=5 {
        let with = |params: &[u8]| [Resolver::full(1, N, &address(carrier, 1), params)];
        for (what, params, fault) in BAD {
            let resolvers = with(&hex(params));
            let source = format!("RULES P1 to P8, {what}, carrier {carrier}");
            table.discarded(source.clone(), carrier, &area(carrier, &resolvers), fault);
            table.write_refused(source, ROOM, &sheet(carrier, &resolvers), fault);
        }
        for (what, params) in GOOD {
            let source = format!("RULES P1 to P8, {what}, carrier {carrier}");
            table.goes_round(source, carrier, &with(&hex(params)));
        }
        let longest = param(1, &[&[255][..], &[b'x'; 255]].concat());
        let source = format!("RULES P5, alpn of 255 octets, carrier {carrier}");
        table.goes_round(source, carrier, &with(&longest));
    }
    add_no_default_alpn(table);
    add_long_lists(table);
}
