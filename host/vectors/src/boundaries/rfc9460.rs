//! The test vectors of RFC 9460 §D as resolvers: priority, target name and
//! parameters of each record, with an address beside them. The answers are
//! those of RULES P1 to P8, R21 and R22.

use super::layout::{address, area, hex, name_at, sheet, Resolver, FIRST_NAME};
use super::table::{bad_name, Table, ROOM};

const COM: &[u8] = b"\x03foo\x07example\x03com\0";
const ORG: &[u8] = b"\x03foo\x07example\x03org\0";
const SHORT: &[u8] = b"\x07example\x03com\0";

/// A record of RFC 9460 §D: what it shows, priority, target name, parameters,
/// and the fault, 0 if it is good.
type Row = (&'static str, u16, &'static [u8], &'static str, usize);

/// RFC 9460 §D.1 and §D.2. AliasMode is refused, as are the hints; the rest is
/// good.
const VALID: [Row; 8] = [
    ("D.1, AliasMode", 0, COM, "", 21),
    ("D.2, a port", 16, COM, "00 03 00 02 00 35", 0),
    (
        "D.2, a generic key",
        1,
        COM,
        "02 9b 00 05 68 65 6c 6c 6f",
        0,
    ),
    (
        "D.2, a generic key with a decimal escape",
        1,
        COM,
        "02 9b 00 09 68 65 6c 6c 6f d2 71 6f 6f",
        0,
    ),
    (
        "D.2, two IPv6 hints",
        1,
        COM,
        "00 06 00 20 2001 0db8 0000 0000 0000 0000 0000 0001
         2001 0db8 0000 0000 0000 0000 0053 0001",
        27,
    ),
    (
        "D.2, an IPv6 hint in the embedded IPv4 syntax",
        1,
        SHORT,
        "00 06 00 10 2001 0db8 0122 0344 0000 0000 c000 0221",
        27,
    ),
    (
        "D.2, mandatory, alpn and ipv4hint",
        16,
        ORG,
        "00 00 00 04 00 01 00 04 00 01 00 09 02 68 32 05 68 33 2d 31 39 00 04 00 04 c0 00 02 01",
        27,
    ),
    (
        "D.2, alpn with an escaped comma and backslash",
        16,
        ORG,
        "00 01 00 0c 08 66 5c 6f 6f 2c 62 61 72 02 68 32",
        0,
    ),
];

/// RFC 9460 §D.3, failure cases, in wire form.
const FAILURES: [Row; 10] = [
    (
        "D.3, the same key twice",
        1,
        COM,
        "00 7b 00 03 61 62 63 00 7b 00 03 64 65 66",
        26,
    ),
    ("D.3, mandatory without a value", 1, COM, "00 00 00 00", 28),
    ("D.3, alpn without a value", 1, COM, "00 01 00 00", 28),
    ("D.3, port without a value", 1, COM, "00 03 00 00", 28),
    ("D.3, ipv4hint without a value", 1, COM, "00 04 00 00", 27),
    ("D.3, ipv6hint without a value", 1, COM, "00 06 00 00", 27),
    (
        "D.3, no-default-alpn with a value",
        1,
        COM,
        "00 02 00 03 61 62 63",
        28,
    ),
    (
        "D.3, a mandatory key is missing",
        1,
        COM,
        "00 00 00 02 00 7b",
        28,
    ),
    (
        "D.3, mandatory names itself",
        1,
        COM,
        "00 00 00 02 00 00",
        28,
    ),
    (
        "D.3, a key twice in the mandatory list",
        1,
        COM,
        "00 00 00 04 00 7b 00 7b 00 7b 00 03 61 62 63",
        28,
    ),
];

/// RFC 9460 §D.2, the target name is the root: its first octet is at fault, in
/// text its end, there being no octet.
fn add_root(table: &mut Table) {
    for carrier in 1..=5 {
        let source = format!("RFC 9460 §D.2, the target name is the root, carrier {carrier}");
        let resolvers = [Resolver::full(1, b"\0", &address(carrier, 1), &[])];
        let octets = area(carrier, &resolvers);
        let place = bad_name(name_at(carrier, 1));
        table.discarded(source.clone(), carrier, &octets, place);
        let octets = sheet(carrier, &resolvers);
        table.write_refused(source, ROOM, &octets, bad_name(FIRST_NAME));
    }
}

/// All of the above, read and written in each carrier.
pub fn add(table: &mut Table) {
    add_root(table);
    for (what, priority, name, params, fault) in VALID.into_iter().chain(FAILURES) {
        for carrier in 1..=5 {
            let source = format!("RFC 9460 §{what}, carrier {carrier}");
            let resolver = Resolver::full(priority, name, &address(carrier, 1), &hex(params));
            let resolvers = [resolver];
            if fault == 0 {
                table.goes_round(source, carrier, &resolvers);
            } else {
                table.discarded(source.clone(), carrier, &area(carrier, &resolvers), fault);
                table.write_refused(source, ROOM, &sheet(carrier, &resolvers), fault);
            }
        }
    }
}
