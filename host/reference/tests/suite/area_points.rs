//! From an area to blocks (RULES W1 to W10).

use crate::common::*;
use dnr_reference::read;

#[test]
fn carrier_not_1_to_5_is_1() {
    for carrier in [0, 6, 7, 128, 255] {
        assert_eq!(read_number(carrier, &[]), 1);
        // Before 2 (RULES T1).
        assert_eq!(read_number(carrier, &[0; 40_961]), 1);
    }
}

/// The whole area counts, also behind code 255 (RULES L1); 2 goes before 3.
#[test]
fn too_long_is_2() {
    let mut area = vec![255; 40_960];
    assert_eq!(counts(1, &area), (0, 0, 0));
    area.push(255);
    assert_eq!(read_number(1, &area), 2);
    for carrier in 2..=5 {
        assert_eq!(read_number(carrier, &[1; 40_961]), 2);
    }
}

#[test]
fn headers_and_bodies_past_the_end_are_3() {
    // RULES R3, W6.
    let cases: [(u8, &[u8]); 19] = [
        (1, &[1]),
        (1, &[162]),
        (1, &[0, 162]),
        (1, &[162, 1]),
        (1, &[162, 0, 1, 2, 0]),
        (2, &[0]),
        (2, &[0, 144, 0]),
        (2, &[0, 0, 0]),
        (2, &[0, 144, 0, 1]),
        (2, &[0, 0, 0, 0, 0]),
        (3, &[144]),
        (3, &[144, 0, 0, 0, 0, 0, 0, 0]),
        (3, &[1, 0]),
        (3, &[0, 0, 0, 0, 0, 0, 0, 0]),
        (3, &[144, 1, 0, 0, 0, 0, 0]),
        (3, &[1, 1, 0, 0, 0, 0, 0, 0, 0]),
        (4, &[0, 27, 0]),
        (4, &[0, 1, 0, 1]),
        (5, &[0, 0]),
    ];
    for (carrier, area) in cases {
        assert_eq!(read_number(carrier, area), 3, "{carrier} {area:?}");
    }
}

/// What follows 255 is not framed; 0 and 255 have no length (RULES W2, W3).
#[test]
fn dhcp4_end_and_padding() {
    let k2 = option(1, &block(1, 1, (N, None)));
    for tail in [
        &[][..],
        &[0],
        &[255],
        &[0, 0, 255],
        &[255, 162],
        &[255, 162, 9, 1],
    ] {
        let area = [&k2[..], tail].concat();
        assert_eq!(counts(1, &area), (1, 0, 0));
        let area = [tail, &k2[..]].concat();
        let found = usize::from(!tail.contains(&255));
        assert_eq!(counts(1, &area), (found, 0, 0));
    }
}

/// A block that has nothing in it (RULES W4, W7, R20).
#[test]
fn empty_blocks_are_20() {
    assert_eq!(counts(1, &[162, 0]), (1, 1, 20));
    assert_eq!(counts(1, &[162, 0, 162, 0]), (1, 1, 20));
    assert_eq!(counts(2, &[0, 144, 0, 0]), (1, 1, 20));
    assert_eq!(counts(3, &[144, 1, 0, 1, 0, 0, 0, 0]), (1, 1, 20));
    assert_eq!(counts(4, &[0, 27, 0, 0]), (1, 1, 20));
    assert_eq!(counts(5, &[128, 28, 0, 0, 0, 28, 0, 0]), (2, 2, 20));
}

/// Others are skipped; four zeros are a foreign option in carriers 2, 4, 5
/// (RULES W8).
#[test]
fn foreign_options() {
    let text = b"doh1.example.com";
    for carrier in 1..=5 {
        let name = if carrier < 4 { N } else { text };
        let address = if carrier == 1 || carrier == 4 { A4 } else { A };
        let block = block(carrier, 1, full(name, address, P));
        let (own, foreign): (_, &[u8]) = match carrier {
            1 => (option(1, &block), &[161, 2, 162, 1, 163, 0, 254, 0]),
            2 => (block, &[0, 162, 0, 1, 7, 1, 144, 0, 0, 0, 0, 0, 0]),
            3 => (
                block,
                &[162, 1, 0, 144, 0, 0, 0, 0, 143, 1, 2, 3, 4, 5, 6, 7],
            ),
            4 => (
                block,
                &[0, 28, 0, 1, 9, 128, 28, 0, 0, 1, 27, 0, 0, 0, 0, 0, 0],
            ),
            _ => (
                block,
                &[0, 27, 0, 1, 9, 128, 27, 0, 0, 64, 28, 0, 0, 0, 0, 0, 0],
            ),
        };
        let expected = sheet(carrier, &[record(carrier, 1, 0, full(N, address, P))]);
        for area in [
            [foreign, &own[..]].concat(),
            [&own[..], foreign].concat(),
            [foreign, &own[..], foreign].concat(),
        ] {
            let (reading, octets) = read_done(carrier, &area);
            assert_eq!((reading.found, reading.discarded), (1, 0));
            assert_eq!(octets, expected);
        }
        assert_eq!(counts(carrier, foreign), (0, 0, 0));
    }
}

/// The reserved bit is ignored when read (RULES W7).
#[test]
fn reserved_bit() {
    for carrier in [4, 5] {
        let address = if carrier == 4 { A4 } else { A };
        let mut area = block(carrier, 1, full(b"a", address, P));
        area[0] = 0x80;
        assert_eq!(fault_of(carrier, &area), 0);
        area[0] = 0x40;
        assert_eq!(counts(carrier, &area), (0, 0, 0));
    }
}

/// The same block twice gives two records (RULES W8).
#[test]
fn duplicates_are_kept() {
    let block = block(5, 7, full(b"a.b", A, P));
    let (reading, octets) = read_done(5, &block.repeat(2));
    assert_eq!((reading.found, reading.discarded), (2, 0));
    let one = record(5, 7, 0, full(b"\x01a\x01b\0", A, P));
    assert_eq!(octets, sheet(5, &[one.clone(), one]));
}

/// 3 before 4 before 5, wherever it stands (RULES T1).
#[test]
fn order_of_refusals() {
    let mut area = block(2, 1, (N, None)).repeat(17);
    assert_eq!(read_in(0, 2, &area).0.number, 4);
    area.push(0);
    assert_eq!(read_in(0, 2, &area).0.number, 3);
    assert_eq!(read_in(0, 2, &[]).0.number, 5);
    assert_eq!(read(2, &[], &mut []).number, 5);
}

/// Faulty blocks are discarded and the reading goes on; the first fault is
/// given (RULES W9, W10).
#[test]
fn the_first_fault_and_the_counts() {
    let good = block(2, 4, full(N, A, P));
    let area = [
        good.clone(),
        block(2, 4, (b"\0", None)),
        block(2, 0, (N, None)),
        good.clone(),
        vec![0, 144, 0, 0],
    ]
    .concat();
    let (reading, octets) = read_done(2, &area);
    assert_eq!(
        (reading.found, reading.discarded, reading.fault),
        (5, 3, 22)
    );
    let one = record(2, 4, 0, full(N, A, P));
    assert_eq!(octets, sheet(2, &[one.clone(), one]));
}
