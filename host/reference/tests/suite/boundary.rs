//! The boundary pieces (RULES K1 to K13).

use crate::common::*;
use dnr_reference::Reading;

fn done(length: usize, found: usize, discarded: usize, fault: usize) -> Reading {
    Reading {
        number: 0,
        length,
        found,
        discarded,
        fault,
        place: 0,
    }
}

fn k1() -> Vec<u8> {
    hex("00 90 00 30 00 01 00 12
         04 64 6f 68 31 07 65 78 61 6d 70 6c 65 03 63 6f 6d 00
         00 10 20 01 0d b8 01 22 03 00 00 00 00 00 00 00 00 01
         00 01 00 04 03 64 6f 74")
}

fn k1_sheet() -> Vec<u8> {
    hex("52 53 56 00 01 02 01 00 01 00 00 00 00 01 12
         04 64 6f 68 31 07 65 78 61 6d 70 6c 65 03 63 6f 6d 00
         01 20 01 0d b8 01 22 03 00 00 00 00 00 00 00 00 01
         00 08 00 01 00 04 03 64 6f 74")
}

fn k3() -> Vec<u8> {
    [&hex("90 04 00 01 00 00 0e 10 00 12")[..], N, &[0; 4]].concat()
}

#[test]
fn k1_dhcp6_full() {
    assert_eq!((k1().len(), k1_sheet().len()), (52, 60));
    assert_eq!(k1(), block(2, 1, full(N, A, P)));
    assert_eq!(read_done(2, &k1()).0, done(60, 1, 0, 0));
    goes_round(2, &k1(), &k1_sheet());
}

#[test]
fn k2_dhcp4_name_only() {
    let octets = [&hex("a2 17 00 15 00 01 12")[..], N].concat();
    assert_eq!(octets.len(), 25);
    goes_round(1, &octets, &sheet(1, &[record(1, 1, 0, (N, None))]));
}

#[test]
fn k3_router_name_only() {
    assert_eq!(k3().len(), 32);
    goes_round(3, &k3(), &sheet(3, &[record(3, 1, 3_600, (N, None))]));
}

#[test]
fn k4_router_full() {
    let octets = option(3, &body(3, 1, 3_600, full(N, A, P)));
    assert_eq!((octets.len(), octets[1]), (56, 7));
    assert!(octets.ends_with(P));
    goes_round(3, &octets, &sheet(3, &[record(3, 1, 3_600, full(N, A, P))]));
}

#[test]
fn k5_ike6() {
    let octets = block(5, 1, full(b"doh1.example.com", A, P));
    assert_eq!(octets[..8], [0, 28, 0, 44, 0, 1, 1, 16]);
    assert_eq!(octets.len(), 48);
    goes_round(5, &octets, &sheet(5, &[record(5, 1, 0, full(N, A, P))]));
}

#[test]
fn k6_empty_area() {
    for carrier in 1..=5 {
        assert_eq!(read_done(carrier, &[]).0, done(7, 0, 0, 0));
        goes_round(carrier, &[], &[b'R', b'S', b'V', 0, 1, carrier, 0]);
    }
}

#[test]
fn k7_priority_zero() {
    let mut octets = k1();
    octets[5] = 0;
    let (reading, sheet) = read_done(2, &octets);
    assert_eq!(reading, done(7, 1, 1, 21));
    assert_eq!(sheet, b"RSV\x00\x01\x02\x00");
}

#[test]
fn k8_k9_dhcp4_cut_into_options() {
    for (zeros, joined_length, cuts) in [(268, 300, vec![255, 45]), (223, 255, vec![255])] {
        let mut params = [&hex("ff 00")[..], &(zeros as u16).to_be_bytes()].concat();
        params.extend(vec![0; zeros]);
        let joined = block(1, 1, full(N, A4, &params));
        assert_eq!(joined.len(), joined_length);
        let mut octets = Vec::new();
        let mut rest = &joined[..];
        for cut in cuts {
            octets.extend(option(1, &rest[..cut]));
            rest = &rest[cut..];
        }
        assert!(rest.is_empty());
        goes_round(
            1,
            &octets,
            &sheet(1, &[record(1, 1, 0, full(N, A4, &params))]),
        );
        assert_eq!(read_done(1, &octets).0.found, 1);
    }
}

#[test]
fn k10_loopback() {
    let mut octets = k1();
    octets[28..44].copy_from_slice(&hex("00000000000000000000000000000001"));
    assert_eq!(read_done(2, &octets).0, done(7, 1, 1, 25));
}

#[test]
fn k11_padding() {
    let mut octets = k3();
    octets[31] = 1;
    assert_eq!(read_done(3, &octets).0, done(7, 1, 1, 29));
}

#[test]
fn k12_order() {
    let names: [&[u8]; 3] = [
        b"\x01a\x07example\0",
        b"\x01b\x07example\0",
        b"\x01c\x07example\0",
    ];
    let area: Vec<u8> = names
        .iter()
        .zip([5, 1, 5])
        .flat_map(|(name, priority)| block(2, priority, (name, None)))
        .collect();
    let (reading, octets) = read_done(2, &area);
    assert_eq!((reading.found, reading.discarded), (3, 0));
    let ordered = [
        record(2, 1, 0, (names[1], None)),
        record(2, 5, 0, (names[0], None)),
        record(2, 5, 0, (names[2], None)),
    ];
    assert_eq!(octets, sheet(2, &ordered));
}

#[test]
fn input_of_40960_and_40961() {
    // One DHCPv6 option 144 for K1, the rest foreign options.
    let mut area = k1();
    area.extend([0, 1]);
    let length = 40_960 - area.len() - 2;
    area.extend((length as u16).to_be_bytes());
    area.resize(40_960, 7);
    let (reading, octets) = read_done(2, &area);
    assert_eq!((reading.found, octets), (1, k1_sheet()));
    area.push(0);
    assert_eq!(read_number(2, &area), 2);
}

#[test]
fn addresses_63_and_64() {
    assert_eq!(fault_of(2, &block(2, 1, full(N, &A.repeat(63), P))), 0);
    assert_eq!(fault_of(2, &block(2, 1, full(N, &A.repeat(64), P))), 24);
}

#[test]
fn records_16_and_17() {
    let option = block(2, 9, (N, None));
    let (reading, octets) = read_done(2, &option.repeat(16));
    assert_eq!(reading, done(7 + 16 * 26, 16, 0, 0));
    assert_eq!(octets[6], 16);
    assert_eq!(read_number(2, &option.repeat(17)), 4);
}

#[test]
fn output_of_59_and_60() {
    assert_eq!(read_in(59, 2, &k1()).0.number, 5);
    assert_eq!(read_in(60, 2, &k1()), (done(60, 1, 0, 0), k1_sheet()));
}
