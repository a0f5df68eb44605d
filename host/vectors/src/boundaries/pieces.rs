//! The pieces RULES K1 to K12, octet by octet as they stand there. What the
//! table leaves out, the sheets of K2 to K12 and the octets of K4, K5, K8, K9
//! and K12, is laid out by hand after RULES S1, S2 and B1.

use super::layout::{hex, A, A4, N, P};
use super::table::{fault, Done, Table, ROOM};

/// The address ::1 of K10.
const LOOPBACK: &[u8] = &[0, 0, 0, 0, 0, 0, 0, 0, 0, 0, 0, 0, 0, 0, 0, 1];

/// K1, carrier 2, priority 1: 52 octets.
pub fn k1() -> Vec<u8> {
    k1_with("00 01", A)
}

/// K1 with another priority or address.
fn k1_with(priority: &str, address: &[u8]) -> Vec<u8> {
    let head = [hex("00 90 00 30"), hex(priority), hex("00 12")].concat();
    [&head, N, &hex("00 10"), address, P].concat()
}

/// The sheet of K1: 60 octets.
pub fn k1_sheet() -> Vec<u8> {
    k1_sheet_with("00 01", A)
}

/// The sheet of K1 with another priority or address.
fn k1_sheet_with(priority: &str, address: &[u8]) -> Vec<u8> {
    let header = hex("52 53 56 00 01 02 01");
    let head = [header, hex(priority), hex("00 00 00 00 01 12")].concat();
    [&head, N, &[1], address, &hex("00 08"), P].concat()
}

/// K2, carrier 1, name only: 25 octets.
pub fn k2() -> Vec<u8> {
    [&hex("a2 17 00 15 00 01 12"), N].concat()
}

/// The sheet of K2.
pub fn k2_sheet() -> Vec<u8> {
    [&hex("52 53 56 00 01 01 01 00 01 00 00 00 00 00 12"), N].concat()
}

/// K3, carrier 3, name only, lifetime 3,600: 32 octets.
pub fn k3() -> Vec<u8> {
    [&hex("90 04 00 01 00 00 0e 10 00 12"), N, &[0; 4]].concat()
}

/// The sheet of K3.
pub fn k3_sheet() -> Vec<u8> {
    [&hex("52 53 56 00 01 03 01 00 01 00 00 0e 10 00 12"), N].concat()
}

/// K4, carrier 3 with N, A, P: length octet 7, no padding. RULES gives neither
/// priority nor lifetime; they are those of K3.
pub fn k4() -> Vec<u8> {
    let head = hex("90 07 00 01 00 00 0e 10 00 12");
    [&head, N, &hex("00 10"), A, &hex("00 08"), P].concat()
}

/// The sheet of K4.
pub fn k4_sheet() -> Vec<u8> {
    let head = hex("52 53 56 00 01 03 01 00 01 00 00 0e 10 01 12");
    [&head, N, &[1], A, &hex("00 08"), P].concat()
}

/// K5, carrier 5 with the same: length 44, ADN length 16. The priority is 1.
pub fn k5() -> Vec<u8> {
    [&hex("00 1c 00 2c 00 01 01 10"), A, b"doh1.example.com", P].concat()
}

/// The sheet of K5.
pub fn k5_sheet() -> Vec<u8> {
    let head = hex("52 53 56 00 01 05 01 00 01 00 00 00 00 01 12");
    [&head, N, &[1], A, &hex("00 08"), P].concat()
}

/// The joined data of K8 and K9: L, priority 1, N, 192.0.2.1, and key 65,280
/// with zeros.
fn joined(instance_length: &str, value_length: &str, zeros: usize) -> Vec<u8> {
    let (length, key) = (hex(instance_length), hex("ff 00"));
    let value = [hex(value_length), vec![0; zeros]].concat();
    [&length, &hex("00 01 12"), N, &[4], A4, &key, &value].concat()
}

/// The sheet of K8 and K9.
fn joined_sheet(params_length: &str, value_length: &str, zeros: usize) -> Vec<u8> {
    let head = hex("52 53 56 00 01 01 01 00 01 00 00 00 00 01 12");
    let params = [hex("ff 00"), hex(value_length), vec![0; zeros]].concat();
    [&head, N, &[1], A4, &hex(params_length), &params].concat()
}

/// The joined data of K8: 300 octets.
pub fn k8_joined() -> Vec<u8> {
    joined("01 2a", "01 0c", 268)
}

/// K8: options of 255 and 45 octets.
pub fn k8() -> Vec<u8> {
    let joined = k8_joined();
    [&hex("a2 ff"), &joined[..255], &hex("a2 2d"), &joined[255..]].concat()
}

/// The sheet of K8.
pub fn k8_sheet() -> Vec<u8> {
    joined_sheet("01 10", "01 0c", 268)
}

/// K9: joined data of 255 octets, one option.
pub fn k9() -> Vec<u8> {
    [hex("a2 ff"), joined("00 fd", "00 df", 223)].concat()
}

/// The sheet of K9.
pub fn k9_sheet() -> Vec<u8> {
    joined_sheet("00 e3", "00 df", 223)
}

/// The name a.example, or with another letter.
fn letter_example(letter: u8) -> Vec<u8> {
    [&[1, letter], &hex("07 65 78 61 6d 70 6c 65 00")[..]].concat()
}

/// A name-only option of K12.
fn k12_option(letter: u8, priority: u8) -> Vec<u8> {
    let head = [&hex("00 90 00 0f")[..], &[0, priority], &hex("00 0b")].concat();
    [head, letter_example(letter)].concat()
}

/// A record of the sheet of K12.
fn k12_record(letter: u8, priority: u8) -> Vec<u8> {
    let head = [&[0, priority], &hex("00 00 00 00 00 0b")[..]].concat();
    [head, letter_example(letter)].concat()
}

/// K12: a.example, b.example, c.example with priorities 5, 1, 5.
pub fn k12() -> Vec<u8> {
    [
        k12_option(b'a', 5),
        k12_option(b'b', 1),
        k12_option(b'c', 5),
    ]
    .concat()
}

/// The sheet of K12: priority 1, then the first 5, then the second 5.
pub fn k12_sheet() -> Vec<u8> {
    let records = [
        k12_record(b'b', 1),
        k12_record(b'a', 5),
        k12_record(b'c', 5),
    ];
    [hex("52 53 56 00 01 02 03"), records.concat()].concat()
}

/// The header of a sheet without records.
pub fn empty_sheet(carrier: u8) -> Vec<u8> {
    [&hex("52 53 56 00 01")[..], &[carrier, 0]].concat()
}

/// The pieces that are read to a record and written back: name, carrier,
/// octets, sheet.
fn whole() -> Vec<(&'static str, u8, Vec<u8>, Vec<u8>)> {
    vec![
        ("K1", 2, k1(), k1_sheet()),
        ("K2", 1, k2(), k2_sheet()),
        ("K3", 3, k3(), k3_sheet()),
        ("K4", 3, k4(), k4_sheet()),
        ("K5", 5, k5(), k5_sheet()),
        ("K8", 1, k8(), k8_sheet()),
        ("K9", 1, k9(), k9_sheet()),
    ]
}

/// K1 to K12, and of K13 a buffer of 59 and of 60 octets for K1, which are two
/// of the rooms of K1.
pub fn add(table: &mut Table) {
    for (name, carrier, octets, sheet) in whole() {
        let source = format!("RULES {name}");
        table.read_in_rooms(&source, carrier, &octets, &Done::kept(1, &sheet));
        table.write_in_rooms(&source, &sheet, &octets);
    }
    for carrier in 1..=5 {
        let source = format!("RULES K6 in carrier {carrier}");
        let sheet = empty_sheet(carrier);
        table.read_in_rooms(&source, carrier, &[], &Done::kept(0, &sheet));
        table.write_in_rooms(&source, &sheet, &[]);
    }
    add_faulty(table);
    let source = "RULES K12";
    table.read_in_rooms(source, 2, &k12(), &Done::kept(3, &k12_sheet()));
    let ordered = [
        k12_option(b'b', 1),
        k12_option(b'a', 5),
        k12_option(b'c', 5),
    ];
    table.write_in_rooms(source, &k12_sheet(), &ordered.concat());
}

/// K7, K10 and K11, and the sheets that would belong to the first two, which
/// the writer refuses with the same numbers.
fn add_faulty(table: &mut Table) {
    let none = |carrier, number| Done {
        found: 1,
        discarded: 1,
        fault: fault(number),
        sheet: empty_sheet(carrier),
    };
    let k7 = k1_with("00 00", A);
    table.read_in_rooms("RULES K7", 2, &k7, &none(2, 21));
    let k10 = k1_with("00 01", LOOPBACK);
    table.read_in_rooms("RULES K10", 2, &k10, &none(2, 25));
    let mut k11 = k3();
    *k11.last_mut().expect("K3 has octets") = 1;
    table.read_in_rooms("RULES K11", 3, &k11, &none(3, 29));
    let alias = k1_sheet_with("00 00", A);
    let loopback = k1_sheet_with("00 01", LOOPBACK);
    for room in [0, 51, 52, ROOM] {
        table.write_refused("RULES K7 as a sheet", room, &alias, 21);
        table.write_refused("RULES K10 as a sheet", room, &loopback, 25);
    }
}

#[cfg(test)]
mod tests {
    use super::super::layout::{area, params_of, sheet, Resolver};
    use super::*;

    /// The lengths that the table gives.
    #[test]
    fn lengths_of_the_paper() {
        let lengths = [k1(), k1_sheet(), k2(), k3(), k8_joined(), k8(), k9()];
        let lengths = lengths.map(|octets| octets.len());
        assert_eq!(lengths, [52, 60, 25, 32, 300, 304, 257]);
        assert_eq!((k4().len(), k5().len()), (7 * 8, 4 + 44));
    }

    /// The layouts give the table's octets.
    #[test]
    fn layouts_agree_with_the_pieces() {
        let full = Resolver::full(1, N, A, P);
        let named = Resolver::named(1, N);
        let large = |length| Resolver::full(1, N, A4, &params_of(length));
        let rows = [
            full.clone(),
            named.clone(),
            named.living(3_600),
            full.clone().living(3_600),
            full,
            large(272),
            large(227),
        ];
        for ((name, carrier, octets, whole_sheet), resolver) in whole().into_iter().zip(rows) {
            let resolvers = [resolver];
            assert_eq!(area(carrier, &resolvers), octets, "{name}");
            assert_eq!(sheet(carrier, &resolvers), whole_sheet, "{name}");
        }
    }
}
