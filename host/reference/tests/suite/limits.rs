//! The limits (RULES L1 to L5).

use crate::common::*;

fn params_of(length: usize) -> Vec<u8> {
    let mut params = vec![0xff, 0];
    params.extend((length as u16 - 4).to_be_bytes());
    params.resize(length, 0);
    params
}

/// A name of 255 octets.
fn longest_name() -> Vec<u8> {
    let label = |length: u8| [vec![length], vec![b'n'; usize::from(length)]].concat();
    [label(63), label(63), label(63), label(61), vec![0]].concat()
}

#[test]
fn params_1024_and_1025() {
    assert_eq!(fault_of(2, &v6_with_params(&params_of(1_024))), 0);
    assert_eq!(fault_of(2, &v6_with_params(&params_of(1_025))), 24);
}

/// 64 addresses as carried are too many, also if 63 are dropped (RULES L3).
#[test]
fn addresses_are_counted_as_carried() {
    let multicast = [vec![0xff], vec![0; 15]].concat();
    let list = |count| [multicast.repeat(count), A.to_vec()].concat();
    assert_eq!(fault_of(2, &block(2, 1, full(N, &list(62), P))), 0);
    assert_eq!(fault_of(2, &block(2, 1, full(N, &list(63), P))), 24);
}

/// Carrier 1 cannot carry 64 addresses (RULES L3, C1).
#[test]
fn dhcp4_address_lengths() {
    for (length, fault) in [(252, 0), (253, 23), (254, 23), (255, 23), (6, 23)] {
        let joined = block(1, 1, full(N, &vec![9; length], &[]));
        let (front, back) = joined.split_at(joined.len().min(255));
        let area = [option(1, front), option(1, back)].concat();
        assert_eq!(fault_of(1, &area), fault);
    }
}

/// Sixteen of the largest records: a sheet of 36,775 octets, written as less
/// than 40,960 (RULES L5, L1).
#[test]
fn the_largest_sheet() {
    let name = longest_name();
    let addresses = A.repeat(63);
    let params = params_of(1_024);
    let one = |carrier| record(carrier, 1, 0, full(&name, &addresses, &params));
    assert_eq!(one(2).len(), 2_298);
    for (carrier, length) in [(2, 36_752), (5, 16 * (4 + 4 + 253 + 1_008 + 1_024))] {
        let octets = sheet(carrier, &vec![one(carrier); 16]);
        assert_eq!(octets.len(), dnr_reference::MAX_SHEET);
        let (number, written) = write_in(40_960, &octets);
        assert_eq!((number, written.len()), (0, length));
        goes_round(carrier, &written, &octets);
    }
    let one = record(1, 1, 0, full(&name, &A4.repeat(63), &params));
    let octets = sheet(1, &vec![one; 16]);
    let (number, written) = write_in(40_960, &octets);
    assert_eq!(number, 0);
    let joined: usize = 16 * (2 + 4 + 255 + 252 + 1_024);
    assert_eq!(written.len(), joined + 2 * joined.div_ceil(255));
    goes_round(1, &written, &octets);
}

/// 4 counts kept records; a fault in any instance, the 17th or later too,
/// discards the block and there is no 4 (RULES T2).
#[test]
fn seventeen_instances() {
    let good = block(1, 3, (b"\x01a\0", None));
    let alias = block(1, 0, (b"\x01a\0", None));
    let area = |count: usize, last: &[u8]| option(1, &[&good.repeat(count), last].concat());
    assert_eq!(counts(1, &area(16, &[])), (1, 0, 0));
    assert_eq!(read_number(1, &area(17, &[])), 4);
    assert_eq!(counts(1, &area(16, &alias)), (1, 1, 21));
    assert_eq!(counts(1, &area(20, &alias)), (1, 1, 21));
    assert_eq!(counts(1, &area(20, &[0])), (1, 1, 20));
    assert_eq!(read_done(1, &area(20, &[0])).1, sheet(1, &[]));
}

/// Discarded blocks do not count towards 16 (RULES R4).
#[test]
fn only_kept_records_count() {
    let good = block(2, 3, (N, None));
    let bad = block(2, 0, (N, None));
    let area = [good.repeat(8), bad.repeat(30), good.repeat(8)].concat();
    assert_eq!(counts(2, &area), (46, 30, 21));
    assert_eq!(read_number(2, &[area, good].concat()), 4);
}
