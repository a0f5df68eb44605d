//! Taking and writing sheets (RULES S1 to S5, T5, E1 to E3).

use crate::common::*;

fn name_only(carrier: u8) -> Vec<u8> {
    record(carrier, 1, 0, (N, None))
}

#[test]
fn numbers_2_40_41_42_4_in_order() {
    assert_eq!(write_number(&[]), 40);
    assert_eq!(write_number(b"RSV\0\x01\x02"), 40);
    assert_eq!(write_number(b"RSv\0\x01\x02\0"), 40);
    assert_eq!(write_number(b"QSV\0\x02\x09\xff"), 40);
    assert_eq!(write_number(b"RSV\0\x02\x09\xff"), 41);
    assert_eq!(write_number(b"RSV\x01\x01\x02\0"), 41);
    assert_eq!(write_number(b"RSV\0\0\x02\0"), 41);
    for carrier in [0, 6, 255] {
        assert_eq!(write_number(&[b'R', b'S', b'V', 0, 1, carrier, 99]), 42);
    }
    // 4 even where the sheet does not tile; 2 before 40 (RULES T5).
    assert_eq!(write_number(b"RSV\0\x01\x02\x11"), 4);
    assert_eq!(write_number(b"RSV\0\x01\x02\x10"), 43);
    assert_eq!(write_number(&[0; 40_960]), 40);
    assert_eq!(write_number(&[0; 40_961]), 2);
}

/// RULES R43, over all records before any 21 (RULES T5).
#[test]
fn shape_is_43() {
    let good = sheet(2, &[name_only(2), record(2, 1, 0, full(N, A, P))]);
    assert_eq!(write_number(&good), 0);
    for length in 7..good.len() {
        assert_eq!(write_number(&good[..length]), 43, "{length}");
    }
    assert_eq!(write_number(&[&good[..], &[0]].concat()), 43);
    for count in [0, 1, 3, 16] {
        let mut octets = good.clone();
        octets[6] = count;
        assert_eq!(write_number(&octets), 43);
    }
    for mode in [2, 128, 255] {
        let mut octets = sheet(2, &[name_only(2)]);
        octets[13] = mode;
        assert_eq!(write_number(&octets), 43);
    }
    for carrier in 1..=5 {
        let number = if carrier == 3 { 0 } else { 43 };
        let mode_0 = sheet(carrier, &[record(carrier, 1, 1 << 24, (N, None))]);
        assert_eq!(write_number(&mode_0), number);
        let address = if carrier == 1 || carrier == 4 { A4 } else { A };
        let mode_1 = sheet(carrier, &[record(carrier, 1, 1, full(N, address, P))]);
        assert_eq!(write_number(&mode_1), number);
    }
    // Falling priority in the last record beats priority 0 in the first.
    let falls = [0, 5, 4].map(|priority| record(2, priority, 0, (N, None)));
    assert_eq!(write_number(&sheet(2, &falls)), 43);
    let rises = [0, 4, 5].map(|priority| record(2, priority, 0, (N, None)));
    assert_eq!(write_number(&sheet(2, &rises)), 21);
    let equal = [4, 4, 5].map(|priority| record(2, priority, 0, (N, None)));
    assert_eq!(write_number(&sheet(2, &equal)), 0);
    // A name of length 0 tiles.
    assert_eq!(write_number(&sheet(2, &[record(2, 1, 0, (b"", None))])), 22);
}

#[test]
fn faults_21_to_28_of_a_record() {
    let params = |text: &str| sheet(2, &[record(2, 1, 0, full(N, A, &hex(text)))]);
    assert_eq!(write_number(&sheet(2, &[record(2, 0, 0, (b"", None))])), 21);
    assert_eq!(
        write_number(&sheet(2, &[record(2, 1, 0, (b"\0", None))])),
        22
    );
    // No addresses 23, above 63 of them 24 (RULES R23, R24).
    assert_eq!(
        write_number(&sheet(2, &[record(2, 1, 0, full(N, &[], P))])),
        23
    );
    for count in [64, 255] {
        let octets = sheet(2, &[record(2, 1, 0, full(N, &A.repeat(count), P))]);
        assert_eq!(write_number(&octets), 24);
    }
    let long = [hex("ff00 03fd"), vec![0; 1_021]].concat();
    assert_eq!(
        write_number(&sheet(2, &[record(2, 1, 0, full(N, A, &long))])),
        24
    );
    assert_eq!(write_number(&params("00")), 26);
    assert_eq!(write_number(&params("0004 0000")), 27);
    assert_eq!(write_number(&params("0003 0000")), 28);
    // Any address to be dropped (RULES R25).
    for bad in [[127, 0, 0, 1], [224, 0, 0, 1], [239, 255, 255, 255]] {
        for list in [[A4, &bad].concat(), [&bad, A4].concat(), bad.to_vec()] {
            let octets = sheet(4, &[record(4, 1, 0, full(N, &list, P))]);
            assert_eq!(write_number(&octets), 25);
        }
    }
}

/// Mode 0 in carriers 4 and 5 is 23, at 23's place (RULES T4).
#[test]
fn name_only_in_ike() {
    for carrier in [4, 5] {
        let address = if carrier == 4 { A4 } else { A };
        let alone = |priority, name| sheet(carrier, &[record(carrier, priority, 0, (name, None))]);
        assert_eq!(write_number(&alone(1, N)), 23);
        assert_eq!(write_number(&alone(1, b"\0")), 22);
        assert_eq!(write_number(&alone(0, N)), 21);
        let later = [
            name_only(carrier),
            record(carrier, 1, 0, full(b"", address, P)),
        ];
        assert_eq!(write_number(&sheet(carrier, &later)), 23);
    }
}

/// Empty parameters are good (RULES P1).
#[test]
fn empty_params() {
    for carrier in 1..=5 {
        let name = if carrier < 4 { N } else { b"doh1.example.com" };
        let address = if carrier == 1 || carrier == 4 { A4 } else { A };
        let block = block(carrier, 1, full(name, address, &[]));
        let octets = if carrier == 1 {
            option(1, &block)
        } else {
            block
        };
        let sheet = sheet(carrier, &[record(carrier, 1, 0, full(N, address, &[]))]);
        goes_round(carrier, &octets, &sheet);
    }
}

/// 44 after all records' faults, before 5 (RULES T5, R44).
#[test]
fn router_option_too_large() {
    // 14 + name 18 + addresses 1,008 + parameters.
    let params = |length: usize| {
        let value = vec![0; length - 4];
        [&[0xff, 0][..], &(value.len() as u16).to_be_bytes(), &value].concat()
    };
    let addresses = A.repeat(63);
    let large = |length| record(3, 1, 9, full(N, &addresses, &params(length)));
    let (number, octets) = write_in(40_960, &sheet(3, &[large(1_000)]));
    assert_eq!((number, octets.len(), octets[1]), (0, 2_040, 255));
    goes_round(3, &octets, &sheet(3, &[large(1_000)]));
    assert_eq!(write_in(2_040, &sheet(3, &[large(993)])).1.len(), 2_040);
    assert_eq!(write_in(2_032, &sheet(3, &[large(992)])).1.len(), 2_032);
    assert_eq!(write_number(&sheet(3, &[large(1_001)])), 44);
    assert_eq!(write_in(0, &sheet(3, &[large(1_001)])).0, 44);
    let bad = record(3, 1, 9, (b"", None));
    assert_eq!(write_number(&sheet(3, &[large(1_001), bad.clone()])), 22);
    assert_eq!(write_number(&sheet(3, &[bad, large(1_001)])), 22);
    // No other carrier has this limit.
    let other = record(2, 1, 0, full(N, &addresses, &params(1_001)));
    assert_eq!(write_number(&sheet(2, &[other])), 0);
}

/// Each record's first fault, of the first such record (RULES T5).
#[test]
fn the_first_record_with_a_fault() {
    let late = record(2, 1, 0, full(N, A, &hex("0003 0000")));
    let early = record(2, 1, 0, (b"", None));
    assert_eq!(write_number(&sheet(2, &[late.clone(), early.clone()])), 28);
    assert_eq!(write_number(&sheet(2, &[early, late])), 22);
}

/// No records are written as nothing, and room 0 suffices (RULES E2).
#[test]
fn no_records() {
    for carrier in 1..=5 {
        assert_eq!(write_in(0, &sheet(carrier, &[])), (0, vec![]));
    }
}

#[test]
fn output_too_short_is_5() {
    let octets = sheet(2, &[record(2, 1, 0, full(N, A, P))]);
    for room in 0..52 {
        assert_eq!(write_in(room, &octets).0, 5);
    }
    assert_eq!(write_in(52, &octets).0, 0);
    assert_eq!(write_in(53, &octets).0, 0);
}
