//! The proved writer and the reference on generated sheets: the same numbers, the same octets, no octet outside the buffers, and what is
//! written is read back.

use compare::generate::Health;
use compare::random::Random;
use compare::sheets::{damage, sheet, sized};
use compare::{read, write, Reading, Written};

const GUARD: usize = 32;
const MARK: u8 = 0x5A;

/// Writes into a buffer of `room` octets with guards on both sides, and compares everything that came back.
fn compared(sheet: &[u8], room: usize) -> (Written, Vec<u8>) {
    let mut mine = vec![MARK; room + 2 * GUARD];
    let mut theirs = vec![MARK; room];
    let got = write(sheet, &mut mine[GUARD..GUARD + room]);
    let wanted = dnr_reference::write(sheet, &mut theirs);
    assert_eq!(got, wanted, "room {room}, sheet {sheet:02x?}");
    assert!(mine[GUARD..GUARD + room] == theirs[..], "room {room}, sheet {sheet:02x?}");
    assert!(mine[..GUARD].iter().chain(&mine[GUARD + room..]).all(|&o| o == MARK), "a guard was written");
    if got.number != 0 {
        assert_eq!(got.length, 0);
        assert!(got.place == 0 || got.number == 22);
        assert!(mine.iter().all(|&o| o == MARK), "a refusal wrote");
    }
    (got, theirs)
}

/// The octets of a sheet that is accepted, read under its carrier, are that sheet.
fn read_back(sheet: &[u8], octets: &[u8]) {
    let mut back = vec![MARK; sheet.len()];
    let got = read(usize::from(sheet[5]), octets, &mut back);
    let blocks = if sheet[5] == 1 { usize::from(sheet[6] > 0) } else { usize::from(sheet[6]) };
    assert_eq!(got, Reading { number: 0, length: sheet.len(), found: blocks, discarded: 0, fault: 0, place: 0 });
    assert!(back == sheet, "{sheet:02x?}");
}

/// Every room around the result's length, and none at all.
fn every_room(sheet: &[u8]) -> Written {
    let (all, octets) = compared(sheet, 40_000);
    if all.number == 0 {
        read_back(sheet, &octets[..all.length]);
        for room in [0, 1, all.length.saturating_sub(1), all.length, all.length + 1] {
            let (part, _) = compared(sheet, room);
            assert_eq!(part.number, if room < all.length { 5 } else { 0 });
        }
    } else {
        assert_eq!(compared(sheet, 0).0, all);
    }
    all
}

fn run(carrier: u8, seed: u64, cases: usize) {
    let mut r = Random::new(seed);
    let mut numbers = [0usize; 45];
    for case in 0..cases {
        let health = if r.once_in(3) { Health::Good } else { Health::Hurt };
        let records = match r.below(10) {
            0 => 0,
            1..=7 => 1 + r.below(3),
            8 => 15 + r.below(3),
            _ => 1 + r.below(16),
        };
        let mut s = sheet(&mut r, carrier, records, health);
        if r.once_in(6) {
            damage(&mut r, &mut s);
        }
        let answer = if case % 8 == 0 {
            every_room(&s)
        } else {
            let (answer, octets) = compared(&s, 40_000);
            if answer.number == 0 {
                read_back(&s, &octets[..answer.length]);
            }
            answer
        };
        numbers[answer.number] += 1;
    }
    println!("carrier {carrier}: done {}, 4: {}, 21 to 28 {:?}, 40 to 43 {:?}", numbers[0], numbers[4], &numbers[21..29], &numbers[40..44]);
    for number in [0, 4, 21, 22, 23, 24, 25, 26, 27, 28, 40, 41, 42, 43] {
        assert!(numbers[number] > 0, "carrier {carrier}: {number} was never answered");
    }
}

#[test]
fn dhcp4() {
    run(1, 21, 24_000);
}

#[test]
fn dhcp6() {
    run(2, 22, 24_000);
}

#[test]
fn router_advertisement() {
    run(3, 23, 24_000);
}

#[test]
fn ike4() {
    run(4, 24, 24_000);
}

#[test]
fn ike6() {
    run(5, 25, 24_000);
}

#[test]
fn the_longest_input() {
    let mut s = b"RSV\x00\x01\x02\x00".to_vec();
    s.resize(40_960, 0);
    assert_eq!(every_room(&s).number, 43);
    s.push(0);
    assert_eq!(every_room(&s).number, 2);
}

/// 2,040 octets are written, and more when rounded are 44, which goes before 5.
#[test]
fn large_before_room() {
    let mut r = Random::new(26);
    for size in 2_000..=2_048 {
        let s = sized(&mut r, size);
        let answer = every_room(&s);
        assert_eq!(answer.number, if size.next_multiple_of(8) > 2_040 { 44 } else { 0 });
        assert_eq!(compared(&s, 0).0.number, if answer.number == 0 { 5 } else { 44 });
    }
}

/// A sheet of one record of a carrier, of priority 1 and the name a.b.
fn one_record(carrier: u8, addresses: &[Vec<u8>], parameters: &[u8]) -> Vec<u8> {
    let head = [b"RSV\x00\x01", &[carrier, 1, 0, 1, 0, 0, 0, 0, 1, 5][..], b"\x01a\x01b\x00", &[addresses.len() as u8]].concat();
    [head, addresses.concat(), (parameters.len() as u16).to_be_bytes().to_vec(), parameters.to_vec()].concat()
}

/// An address that reading would drop, at each place of lists of addresses, is refused.
#[test]
fn an_unusable_address_at_every_place() {
    for carrier in 1..=5 {
        let (usable, unusable) = match carrier {
            1 | 4 => (vec![192, 0, 2, 1], [vec![127, 0, 0, 1], vec![239, 1, 1, 1]]),
            _ => (vec![32; 16], [[vec![0; 15], vec![1]].concat(), vec![255; 16]]),
        };
        for many in (1..=17).chain([62, 63]) {
            for place in 0..many {
                for bad in &unusable {
                    let mut addresses = vec![usable.clone(); many];
                    assert_eq!(every_room(&one_record(carrier, &addresses, &[])).number, 0);
                    addresses[place].clone_from(bad);
                    assert_eq!(every_room(&one_record(carrier, &addresses, &[])).number, 25);
                }
            }
        }
    }
}

/// Parameters of every length up to the limit and one past it, in every carrier.
#[test]
fn parameters_of_every_length() {
    for long in 0..=1_021u16 {
        let value: Vec<u8> = (0..long).map(|i| (i % 251) as u8).collect();
        let parameters = [&[0xff, 0][..], &long.to_be_bytes(), &value].concat();
        for carrier in 1..=5 {
            let address = vec![32; if carrier == 1 || carrier == 4 { 4 } else { 16 }];
            let got = every_room(&one_record(carrier, &[address], &parameters));
            assert_eq!(got.number, if long > 1_020 { 24 } else { 0 });
        }
    }
}

#[test]
fn octets_without_any_order() {
    let mut r = Random::new(27);
    for _ in 0..50_000 {
        let long = r.below(60);
        let mut s = b"RSV\x00\x01".to_vec();
        s.truncate(r.pick(&[0, 2, 3, 4, 5, 5, 5, 5, 5]));
        s.extend((0..long).map(|_| r.pick(&[0, 0, 1, 1, 2, 3, 4, 5, 8, 97, 192, 255])));
        every_room(&s);
    }
}
