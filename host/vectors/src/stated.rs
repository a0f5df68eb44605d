//! Cases with the answer that the rules give, stated here, and the test vectors
//! of RFC 9460 §D with the numbers of the rules. The files are written only if
//! the reference answers the same.

use crate::cases::{hex, Cases, Kind};
use crate::names::{text, wire, with};
use crate::params::{list, param};

/// Label lengths of the longest name: 255 octets in wire form, 253 as text.
const LONGEST: [usize; 4] = [63, 63, 63, 61];
/// One octet more.
const LONGER: [usize; 4] = [63, 63, 63, 62];

/// A good name and its other form.
fn ok(other_form: impl AsRef<[u8]>) -> String {
    format!("ok {}", hex(other_form.as_ref()))
}

/// The place of the first octet at which no acceptable name can continue.
fn bad(place: usize) -> String {
    format!("bad {place}")
}

/// Names in wire form (RULES N1, N2, N5).
fn add_wire(cases: &mut Cases) {
    let mut state = |octets: &[u8], answer: String| {
        cases.state("RULES N1, wire form", Kind::Wire, octets, answer);
    };
    state(b"\x01a\0", ok("a"));
    state(b"\x04doh1\x07example\x03com\0", ok("doh1.example.com"));
    // The root alone, and nothing at all.
    state(b"\0", bad(0));
    state(b"", bad(0));
    // A hyphen within a label, as its last octet and as its first.
    state(b"\x03a-b\0", ok("a-b"));
    state(b"\x03a--\0", bad(3));
    state(b"\x03-aa\0", bad(1));
    // Cut within a label, and behind its hyphen; an octet after the root.
    state(b"\x03a-", bad(3));
    state(b"\x3f", bad(1));
    state(b"\x02a-", bad(2));
    state(b"\x01a\0\0", bad(3));
    state(b"\x02a_\0", bad(2));
    // A label of 64 octets, and a compression pointer.
    state(&wire(&[64]), bad(0));
    state(b"\x01a\xc0\x0c", bad(2));
    // 255 octets; a length octet that would make 256; at 254 only the root.
    state(&wire(&LONGEST), ok(text(&LONGEST)));
    state(&wire(&LONGER), bad(192));
    state(&wire(&[63, 63, 63, 61, 1]), bad(254));
}

/// Names as text (RULES N4, N5).
fn add_text(cases: &mut Cases) {
    let mut state = |octets: &[u8], answer: String| {
        cases.state("RULES N4, text", Kind::Text, octets, answer);
    };
    let doh1 = b"\x04doh1\x07example\x03com\0";
    state(b"doh1.example.com", ok(doh1));
    state(b"a-.b", bad(2));
    // Cut short: a hyphen or a dot last, or nothing.
    state(b"a-", bad(2));
    state(b"a.", bad(2));
    state(b"a-.", bad(2));
    state(b"", bad(0));
    state(b"-a", bad(0));
    state(b".a", bad(0));
    state(b"a..b", bad(2));
    state(b"a_b", bad(1));
    // Labels of 63 and 64 octets, and a hyphen as the 63rd of 64.
    state(&text(&[63]), ok(wire(&[63])));
    state(&text(&[64]), bad(63));
    state(&with(text(&[64]), 62, b'-'), bad(62));
    // 253 and 254 octets.
    state(&text(&LONGEST), ok(wire(&LONGEST)));
    state(&text(&LONGER), bad(253));
    // After a dot or a hyphen as the 253rd octet nothing fits; after a dot as
    // the 252nd an octet does.
    let end = [63, 63, 63, 59, 1];
    state(&text(&[63, 63, 63, 60, 1]), bad(252));
    state(&text(&end), ok(wire(&end)));
    state(&with(text(&LONGER), 252, b'-'), bad(252));
}

/// An IPv4 address.
fn four(first: u8, last: u8) -> Vec<u8> {
    vec![first, 0, 0, last]
}

/// An IPv6 address with these octets first and last, zeros between.
fn sixteen(first: &[u8], last: &[u8]) -> Vec<u8> {
    let zeros = vec![0; 16 - first.len() - last.len()];
    [first, &zeros, last].concat()
}

/// RULES A1, A2: multicast (224.0.0.0/4, ff00::/8) and host loopback
/// (127.0.0.0/8, ::1) are dropped, the rest keep their order.
fn add_addresses(cases: &mut Cases) {
    let source = "RULES A1, A2";
    let dropped = || "0 1".to_string();
    let kept = |count: usize, drops: u8, list: &[u8]| format!("{count} {drops} {}", hex(list));
    for first in [0, 126, 128, 223, 240, 255] {
        let address = four(first, 1);
        let answer = kept(1, 0, &address);
        cases.state(source, Kind::Ipv4, address, answer);
    }
    for first in [127, 224, 239] {
        cases.state(source, Kind::Ipv4, four(first, 1), dropped());
    }
    let list = [[192, 0, 2, 1], [127, 0, 0, 1], [192, 0, 2, 2]].concat();
    let rest = [[192, 0, 2, 1], [192, 0, 2, 2]].concat();
    cases.state(source, Kind::Ipv4, list, kept(2, 1, &rest));
    // ::1 and ff02::1; ::, ::2, fe80::1 and ::ffff:127.0.0.1.
    let (loopback, nodes) = (sixteen(&[], &[1]), sixteen(&[0xff, 2], &[1]));
    cases.state(source, Kind::Ipv6, loopback.clone(), dropped());
    cases.state(source, Kind::Ipv6, nodes.clone(), dropped());
    for address in [
        sixteen(&[], &[]),
        sixteen(&[], &[2]),
        sixteen(&[0xfe, 0x80], &[1]),
        sixteen(&[], &[255, 255, 127, 0, 0, 1]),
    ] {
        let answer = kept(1, 0, &address);
        cases.state(source, Kind::Ipv6, address, answer);
    }
    let doc = |last: u8| sixteen(&[0x20, 1, 0x0d, 0xb8], &[last]);
    let list = [doc(2), loopback, nodes, doc(1)].concat();
    let rest = [doc(2), doc(1)].concat();
    cases.state(source, Kind::Ipv6, list, kept(2, 1, &rest));
}

/// Parameter fields: what they show, the field, the fault or 0.
const FIELDS: [(&str, &[u8], usize); 28] = [
    ("RULES P1, the field may be empty", b"", 0),
    ("RULES K1, P", b"\0\x01\0\x04\x03dot", 0),
    ("RFC 9460 §D.2, port 53", b"\0\x03\0\x02\0\x35", 0),
    ("RFC 9460 §D.2, key667", b"\x02\x9b\0\x05hello", 0),
    (
        "RULES P4, mandatory alpn, alpn h2, no-default-alpn",
        b"\0\0\0\x02\0\x01\0\x01\0\x03\x02h2\0\x02\0\0",
        0,
    ),
    ("RULES P2, key 65,534", b"\xff\xfe\0\0", 0),
    ("RULES P2, key 65,535", b"\xff\xff\0\0", 26),
    (
        "RFC 9460 §D.3, key123 twice",
        b"\0\x7b\0\x03abc\0\x7b\0\x03def",
        26,
    ),
    (
        "RULES T3, ipv4hint cut, 26 before 27",
        b"\0\x04\0\x04\xc0\0\x02",
        26,
    ),
    (
        "RFC 9460 §D.2, mandatory alpn and ipv4hint",
        b"\0\0\0\x04\0\x01\0\x04\0\x01\0\x09\x02h2\x05h3-19\0\x04\0\x04\xc0\0\x02\x01",
        27,
    ),
    ("RULES T3, 27 before 28", b"\0\x01\0\x01\0\0\x06\0\0", 27),
    ("RFC 9460 §D.3, mandatory without a value", b"\0\0\0\0", 28),
    ("RFC 9460 §D.3, alpn without a value", b"\0\x01\0\0", 28),
    ("RFC 9460 §D.3, port without a value", b"\0\x03\0\0", 28),
    (
        "RFC 9460 §D.3, no-default-alpn with a value",
        b"\0\x02\0\x03abc",
        28,
    ),
    (
        "RFC 9460 §D.3, a mandatory key is missing",
        b"\0\0\0\x02\0\x7b",
        28,
    ),
    (
        "RFC 9460 §D.3, mandatory names itself",
        b"\0\0\0\x02\0\0",
        28,
    ),
    (
        "RFC 9460 §D.3, a key twice in the mandatory list",
        b"\0\0\0\x04\0\x7b\0\x7b\0\x7b\0\x03abc",
        28,
    ),
    // RFC 9460 §7.1.1: no-default-alpn asks for alpn.
    ("RULES P6, no-default-alpn without alpn", b"\0\x02\0\0", 28),
    (
        "RULES P6, alpn h2 and no-default-alpn",
        b"\0\x01\0\x03\x02h2\0\x02\0\0",
        0,
    ),
    (
        "RULES P6, alpn h2 and no-default-alpn with a value",
        b"\0\x01\0\x03\x02h2\0\x02\0\x01\0",
        28,
    ),
    (
        "RULES P6, no-default-alpn with a value, without alpn",
        b"\0\x02\0\x01\0",
        28,
    ),
    (
        "RULES P6, no-default-alpn and port without alpn",
        b"\0\x02\0\0\0\x03\0\x02\0\x35",
        28,
    ),
    (
        "RULES P6, mandatory no-default-alpn without alpn",
        b"\0\0\0\x02\0\x02\0\x02\0\0",
        28,
    ),
    (
        "RULES P6, mandatory alpn and no-default-alpn, which are there",
        b"\0\0\0\x04\0\x01\0\x02\0\x01\0\x03\x02h2\0\x02\0\0",
        0,
    ),
    (
        "RULES T3, no-default-alpn without alpn, then ipv4hint",
        b"\0\x02\0\0\0\x04\0\0",
        27,
    ),
    (
        "RULES T3, no-default-alpn without alpn, then key 65,535",
        b"\0\x02\0\0\xff\xff\0\0",
        26,
    ),
    (
        "RULES T3, no-default-alpn without alpn, then an octet",
        b"\0\x02\0\0\0",
        26,
    ),
];

/// Mandatory lists of twenty keys before parameters from 384 to 7,680 in steps
/// of 384: all of them, and with one place that is wrong (RULES P4).
fn add_lists(cases: &mut Cases) {
    let all: Vec<u16> = (1..=20).map(|count| 384 * count).collect();
    let rest: Vec<u8> = all.iter().flat_map(|key| param(*key, &[])).collect();
    let mut state = |place: usize, keys: &[u16], answer: &str| {
        let listed = [&all[..place], keys, &all[place + keys.len()..]].concat();
        let field = [list(&listed), rest.clone()].concat();
        let source = "RULES P4, a list of twenty keys";
        cases.state(source, Kind::Params, field, answer);
    };
    state(0, &[384], "0");
    // Below all keys that are there, between two of them, above all.
    state(0, &[383], "28");
    state(9, &[3_584], "28");
    state(19, &[7_681], "28");
    // mandatory itself; two keys exchanged.
    state(0, &[0], "28");
    state(9, &[4_224, 3_840], "28");
}

/// All of the above.
pub fn add(cases: &mut Cases) {
    add_wire(cases);
    add_text(cases);
    add_addresses(cases);
    for (source, field, fault) in FIELDS {
        cases.state(source, Kind::Params, field, fault.to_string());
    }
    add_lists(cases);
}
