//! Where the place of a bad name counts from when a call gives it back
//! (RULES N5, W11, T8): in a block from its header on, in joined data from their
//! first octet, in a sheet from its first octet.

use crate::common::*;

/// "a_" goes wrong at 2 in wire form and at 1 as text.
const WIRE: &[u8] = b"\x02a_\0";
const TEXT: &[u8] = b"a_";

/// Fault and place of a reading that is done.
fn fault_and_place(carrier: u8, area: &[u8]) -> (usize, usize) {
    let reading = read_done(carrier, area).0;
    (reading.fault, reading.place)
}

#[test]
fn in_a_block() {
    let (good, foreign) = (block(2, 1, full(N, A, P)), hex("00 17 00 01 00"));
    let bad = block(2, 1, full(WIRE, A, P));
    assert_eq!(
        fault_and_place(2, &[good, foreign, bad].concat()),
        (22, 8 + 2)
    );
    assert_eq!(fault_and_place(3, &block(3, 1, (WIRE, None))), (22, 10 + 2));
    for (carrier, width) in [(4, 4), (5, 16)] {
        for count in 0..3 {
            let addresses = vec![9; count * width];
            let area = block(carrier, 1, full(TEXT, &addresses, P));
            let place = 4 + 4 + count * width + 1;
            assert_eq!(fault_and_place(carrier, &area), (22, place));
        }
    }
}

/// The header octets between options 162 are not counted, wherever the joined
/// data are cut.
#[test]
fn in_joined_data() {
    let (good, bad) = (block(1, 1, (N, None)), block(1, 1, full(WIRE, A4, P)));
    // A good instance has 2 + 3 + 18 octets.
    for before in 0..3 {
        let joined = [&good.repeat(before)[..], &bad, &good].concat();
        for cut in 0..=joined.len() {
            let area = [
                option(1, &joined[..cut]),
                vec![0],
                option(1, &joined[cut..]),
            ]
            .concat();
            assert_eq!(fault_and_place(1, &area), (22, 23 * before + 5 + 2));
        }
    }
}

/// Only the first discarded block tells its place.
#[test]
fn of_the_first_discarded_block() {
    for carrier in 2..=5 {
        let name = if carrier < 4 { WIRE } else { TEXT };
        let address = if carrier == 4 { A4 } else { A };
        let alias = block(carrier, 0, full(name, address, P));
        let bad = block(carrier, 1, full(name, address, P));
        let empty = block(carrier, 1, full(b"", address, P));
        let before = [8, 10, 12, 24][usize::from(carrier) - 2];
        let place = before + if carrier < 4 { 2 } else { 1 };
        assert_eq!(
            fault_and_place(carrier, &[alias.clone(), bad.clone()].concat()),
            (21, 0)
        );
        assert_eq!(
            fault_and_place(carrier, &[bad.clone(), alias].concat()),
            (22, place)
        );
        assert_eq!(
            fault_and_place(carrier, &[bad.clone(), empty.clone()].concat()),
            (22, place)
        );
        assert_eq!(
            fault_and_place(carrier, &[empty, bad].concat()),
            (22, before)
        );
    }
}

/// A record starts behind those before it, and its name 8 octets later; the
/// room does not matter.
#[test]
fn in_a_sheet() {
    for carrier in 1..=5 {
        let (width, address) = match carrier {
            1 | 4 => (4, A4),
            _ => (16, A),
        };
        let good = record(carrier, 1, 0, full(N, address, P));
        let bad = record(carrier, 1, 0, full(WIRE, address, P));
        for before in 0..4 {
            let octets = sheet(
                carrier,
                &[vec![good.clone(); before], vec![bad.clone()]].concat(),
            );
            // Name 18, count 1, one address, length of the parameters 2, P 8.
            let place = 7 + before * (8 + 18 + 1 + width + 2 + 8) + 8 + 2;
            for room in [0, 4_000] {
                let written = written_in(room, &octets).0;
                assert_eq!((written.number, written.place), (22, place));
            }
        }
        let alias = record(carrier, 0, 0, full(WIRE, address, P));
        let written = written_in(0, &sheet(carrier, &[alias, bad])).0;
        assert_eq!((written.number, written.place), (21, 0));
    }
}
