//! Wrong readings that were met before (RULES X1 to X6).

use crate::common::*;

/// K3's zeros are no address length of 0 (RULES X1).
#[test]
fn zeros_behind_a_router_name_are_padding() {
    for zeros in 0..8 {
        // A name that leaves exactly so many octets to the next unit.
        let label = vec![b'a'; 12 - zeros];
        let name = [&[label.len() as u8][..], &label, &[0]].concat();
        let octets = block(3, 1, (&name, None));
        assert_eq!((octets.len(), 10 + name.len() + zeros), (24, 24));
        goes_round(3, &octets, &sheet(3, &[record(3, 1, 0, (&name, None))]));
    }
}

/// The fixed octets are taken off L once: the port is still there (RULES X2).
#[test]
fn the_last_parameter_stays() {
    let params = [P, &hex("00 03 00 02 03 55")[..]].concat();
    for carrier in [1, 2] {
        let address = if carrier == 1 { A4 } else { A };
        let octets = match carrier {
            1 => option(1, &block(1, 1, full(N, address, &params))),
            _ => block(2, 1, full(N, address, &params)),
        };
        let sheet = sheet(carrier, &[record(carrier, 1, 0, full(N, address, &params))]);
        assert!(sheet.ends_with(&[0, 3, 0, 2, 3, 0x55]));
        goes_round(carrier, &octets, &sheet);
    }
}

/// Options 162 are joined, wherever the cut is and whatever stands between
/// (RULES X3).
#[test]
fn options_162_are_joined() {
    let joined = [block(1, 2, full(N, A4, P)), block(1, 1, (N, None))].concat();
    let records = [record(1, 1, 0, (N, None)), record(1, 2, 0, full(N, A4, P))];
    for cut in 0..=joined.len() {
        let (front, back) = joined.split_at(cut);
        let area = [
            &[0][..],
            &option(1, front),
            &[0, 0, 3, 2, 162, 9],
            &option(1, back),
            &[255, 162],
        ]
        .concat();
        assert_eq!(counts(1, &area), (1, 0, 0));
        assert_eq!(read_done(1, &area).1, sheet(1, &records));
    }
}

/// The smaller priority number comes first, equals in arrival order (RULES X4).
#[test]
fn smaller_priority_first_and_equals_stay() {
    let priorities = [9, 3, 65_535, 3, 1, 9, 1];
    let name = |index: usize| [1, b'a' + index as u8, 0];
    let area: Vec<u8> = (0..priorities.len())
        .flat_map(|index| block(2, priorities[index], (&name(index), None)))
        .collect();
    let mut order: Vec<usize> = (0..priorities.len()).collect();
    order.sort_by_key(|index| priorities[*index]);
    let records: Vec<Vec<u8>> = order
        .iter()
        .map(|index| record(2, priorities[*index], 0, (&name(*index), None)))
        .collect();
    assert_eq!(read_done(2, &area).1, sheet(2, &records));
}

/// The reader drops a loopback address, the writer refuses it (RULES X5).
#[test]
fn loopback_is_dropped_by_the_reader_only() {
    let loopback = [vec![0; 15], vec![1]].concat();
    let both = [&loopback, A].concat();
    let good = sheet(2, &[record(2, 1, 0, full(N, A, P))]);
    assert_eq!(read_done(2, &block(2, 1, full(N, &both, P))).1, good);
    assert_eq!(write_number(&good), 0);
    assert_eq!(
        write_number(&sheet(2, &[record(2, 1, 0, full(N, &both, P))])),
        25
    );
}

/// A mandatory key that is not there is a fault, in order or not (RULES X6).
#[test]
fn mandatory_keys_are_looked_for() {
    let present = [&hex("00 00 00 02 00 01")[..], P].concat();
    let absent = [&hex("00 00 00 02 00 03")[..], P].concat();
    assert_eq!(fault_of(2, &v6_with_params(&present)), 0);
    assert_eq!(fault_of(2, &v6_with_params(&absent)), 28);
    let sheet = sheet(2, &[record(2, 1, 0, full(N, A, &absent))]);
    assert_eq!(write_number(&sheet), 28);
}
