//! Service parameters (RULES P1 to P8; RFC 9460).

use crate::common::*;
use dnr_reference::params_fault;

fn fault(text: &str) -> u8 {
    params_fault(&hex(text))
}

#[test]
fn good_fields() {
    assert_eq!(params_fault(&[]), 0);
    assert_eq!(params_fault(P), 0);
    // mandatory=alpn,port alpn=dot,h2 no-default-alpn port=0
    assert_eq!(
        fault("0000 0004 0001 0003 0001 0007 03646f74 026832 0002 0000 0003 0002 0000"),
        0
    );
    // Keys 5, 7 and 65534 as they are, empty or not.
    assert_eq!(fault("0005 0000 0007 0001 2f fffe 0000"), 0);
    // RFC 9461 §5: dohpath=/dns-query{?dns}
    assert_eq!(fault("0007 0010 2f646e732d71756572797b3f646e737d"), 0);
    assert_eq!(
        params_fault(&[hex("ff00 03fc"), vec![0; 1_020]].concat()),
        0
    );
}

#[test]
fn shape_is_26() {
    for text in [
        "00",
        "0001",
        "000100",
        "00010004 03646f",
        "ff00 ffff 00",
        "0005 0000 00",
        // Keys equal or falling.
        "0005 0000 0005 0000",
        "0007 0000 0005 0000",
        "0000 0002 0001 0000 0002 0001",
        // Key 65535, alone or last.
        "ffff 0000",
        "0005 0000 ffff 0001 00",
    ] {
        assert_eq!(fault(text), 26, "{text}");
    }
}

#[test]
fn hints_are_27() {
    assert_eq!(fault("0004 0004 c0000201"), 27);
    assert_eq!(fault("0006 0000"), 27);
    assert_eq!(fault("0005 0000 0006 0000"), 27);
}

#[test]
fn values_are_28() {
    for text in [
        // mandatory: empty, odd, 0 listed, equal, falling, absent, 65535.
        "0000 0000",
        "0000 0001 00",
        "0000 0003 000100 0001 0002 0161",
        "0000 0002 0000",
        "0000 0004 0000 0001 0001 0002 0161",
        "0000 0004 0001 0001 0001 0002 0161",
        "0000 0004 0005 0001 0001 0002 0161 0005 0000",
        "0000 0002 0005",
        "0000 0004 0001 0005 0001 0002 0161 0007 0000",
        "0000 0002 ffff",
        // alpn: empty, an empty string first, between and last, overruns.
        "0001 0000",
        "0001 0001 00",
        "0001 0003 00 0161",
        "0001 0005 0161 00 0161",
        "0001 0003 0161 00",
        "0001 0002 0261",
        "0001 0003 0161 01",
        // no-default-alpn not empty; port of 0, 1 and 3 octets.
        "0001 0002 0161 0002 0001 00",
        "0003 0000",
        "0003 0001 35",
        "0003 0003 000035",
    ] {
        assert_eq!(fault(text), 28, "{text}");
    }
}

/// RULES P6. RFC 9460 §7.1.1: a record with no-default-alpn is self-consistent
/// (§2.4.3) only if it has alpn too.
#[test]
fn no_default_alpn_needs_alpn() {
    for (text, expected) in [
        // Alone and beside alpn, empty and with a value.
        ("0002 0000", 28),
        ("0001 0002 0161 0002 0000", 0),
        ("0002 0001 00", 28),
        ("0001 0002 0161 0002 0001 00", 28),
        // An alpn that is bad itself.
        ("0001 0000 0002 0000", 28),
        // Before it a mandatory list, without alpn and with it.
        ("0000 0002 0002 0002 0000", 28),
        ("0000 0002 0001 0002 0000", 28),
        ("0000 0004 0001 0002 0002 0000", 28),
        ("0000 0002 0002 0001 0002 0161 0002 0000", 0),
        ("0000 0004 0001 0002 0001 0002 0161 0002 0000", 0),
        // No other key stands for alpn.
        ("0002 0000 0003 0002 0035 0005 0000 0007 0000", 28),
        ("0002 0000 0101 0002 0161", 28),
        // 26 and 27 are asked of the whole field before (RULES T3).
        ("0002 0000 0004 0000", 27),
        ("0002 0000 0004 0000 ffff 0000", 26),
        ("0002 0000 ffff 0000", 26),
        ("0002 0000 0005 0001", 26),
        ("0002 0000 00", 26),
        ("0002 0000 0001 0002 0161", 26),
    ] {
        assert_eq!(fault(text), expected, "{text}");
    }
}

/// Without key 0, and with good values, only key 2 without key 1 is wrong.
#[test]
fn every_choice_of_keys() {
    let all = hex("0001 0002 0161 0002 0000 0003 0002 0035 0005 0000 0007 0000 fffe 0000");
    let ends = [0, 6, 10, 16, 20, 24, 28];
    for choice in 0..64 {
        let has = |place: usize| choice >> place & 1 == 1;
        let params: Vec<u8> = (0..6)
            .filter(|place| has(*place))
            .flat_map(|place| all[ends[place]..ends[place + 1]].to_vec())
            .collect();
        let expected = if has(1) && !has(0) { 28 } else { 0 };
        assert_eq!(params_fault(&params), expected, "{params:02x?}");
    }
}

/// A block with no-default-alpn alone is discarded and the one beside it kept;
/// in carrier 1 they are one block. A sheet is refused (RULES P6, W9).
#[test]
fn no_default_alpn_when_read_and_written() {
    let (alone, both) = (hex("0002 0000"), [P, &hex("0002 0000")].concat());
    for carrier in 1..=5 {
        let name = if carrier < 4 { N } else { b"doh1.example.com" };
        let address = if carrier == 1 || carrier == 4 { A4 } else { A };
        let area = |fields: &[&[u8]]| {
            let block = |params: &&[u8]| block(carrier, 1, full(name, address, params));
            let blocks: Vec<u8> = fields.iter().flat_map(block).collect();
            match carrier {
                1 => option(1, &blocks),
                _ => blocks,
            }
        };
        let of = |params: &[u8]| record(carrier, 1, 0, full(N, address, params));
        let (good, bad) = (sheet(carrier, &[of(&both)]), sheet(carrier, &[of(&alone)]));
        goes_round(carrier, &area(&[&both]), &good);
        assert_eq!(fault_of(carrier, &area(&[&alone])), 28);
        assert_eq!(write_number(&bad), 28);
        assert_eq!(write_in(0, &bad).0, 28);
        let later = sheet(carrier, &[of(&both), of(&alone)]);
        assert_eq!(write_number(&later), 28);
        for fields in [[&both[..], &alone], [&alone, &both]] {
            let (reading, read_sheet) = read_done(carrier, &area(&fields));
            let (found, left) = match carrier {
                1 => (1, sheet(1, &[])),
                _ => (2, good.clone()),
            };
            assert_eq!((reading.found, reading.discarded), (found, 1));
            assert_eq!((reading.fault, read_sheet), (28, left));
        }
    }
}

/// The whole field for 26, then for 27, then for 28 (RULES T3).
#[test]
fn the_earlier_number_wins_over_the_earlier_parameter() {
    assert_eq!(fault("0004 0000 0005 0001"), 26);
    assert_eq!(fault("0003 0001 00 0006 0000"), 27);
    assert_eq!(fault("0000 0000 0001 0000 ffff 0000"), 26);
}

/// A list that names key 4, 6 or 65535 (RULES P4).
#[test]
fn a_mandatory_hint() {
    assert_eq!(fault("0000 0002 0004 0004 0000"), 27);
    assert_eq!(fault("0000 0002 0004"), 28);
    assert_eq!(fault("0000 0002 0006 0005 0000"), 28);
}

/// A mandatory list is good exactly when it is a rising choice of the other
/// keys, not empty.
#[test]
fn every_small_mandatory_list() {
    let present = [1, 5, 7];
    let others = hex("0001 0002 0161 0005 0000 0007 0000");
    let keys = [0, 1, 3, 5, 7, 8];
    let mut lists: Vec<Vec<u16>> = vec![vec![]];
    for size in 0..4 {
        let longer: Vec<Vec<u16>> = lists
            .iter()
            .filter(|list| list.len() == size)
            .flat_map(|list| keys.map(|key| [&list[..], &[key]].concat()))
            .collect();
        lists.extend(longer);
    }
    assert_eq!(lists.len(), 1 + 6 + 36 + 216 + 1296);
    for list in lists {
        let good = !list.is_empty()
            && list.windows(2).all(|pair| pair[0] < pair[1])
            && list.iter().all(|key| present.contains(key));
        let value: Vec<u8> = list.iter().flat_map(|key| key.to_be_bytes()).collect();
        let field = [&[0, 0, 0, value.len() as u8][..], &value, &others].concat();
        assert_eq!(params_fault(&field), if good { 0 } else { 28 }, "{list:?}");
    }
}
