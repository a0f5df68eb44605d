//! The proved reader and the reference on generated areas: the same numbers, the same octets, and no octet outside the buffers.

use compare::generate::{area, damage, Health};
use compare::random::Random;
use compare::{read, Reading};

const GUARD: usize = 32;
const MARK: u8 = 0xA5;

/// Reads into a buffer of `room` octets with guards on both sides, and compares everything that came back.
fn compared(carrier: u8, area: &[u8], room: usize) -> Reading {
    let mut mine = vec![MARK; room + 2 * GUARD];
    let mut theirs = vec![MARK; room];
    let got = read(usize::from(carrier), area, &mut mine[GUARD..GUARD + room]);
    let wanted = dnr_reference::read(carrier, area, &mut theirs);
    assert_eq!(got, wanted, "carrier {carrier}, room {room}, area {area:02x?}");
    assert!(mine[GUARD..GUARD + room] == theirs[..], "carrier {carrier}, room {room}, area {area:02x?}");
    assert!(mine[..GUARD].iter().chain(&mine[GUARD + room..]).all(|&o| o == MARK), "a guard was written");
    if got.number != 0 {
        assert_eq!(got, Reading { number: got.number, length: 0, found: 0, discarded: 0, fault: 0, place: 0 });
        assert!(mine.iter().all(|&o| o == MARK), "a refusal wrote");
    }
    got
}

/// Every room around the result's length, and none at all.
fn every_room(carrier: u8, area: &[u8]) -> Reading {
    let all = compared(carrier, area, 40_000);
    if all.number == 0 {
        for room in [0, 6, 7, all.length - 1, all.length, all.length + 1] {
            let part = compared(carrier, area, room);
            assert_eq!(part.number, if room < all.length { 5 } else { 0 });
        }
    } else {
        compared(carrier, area, 0);
    }
    all
}

#[derive(Default)]
struct Counts {
    numbers: [usize; 6],
    faults: [usize; 30],
}

impl Counts {
    fn add(&mut self, r: Reading) {
        self.numbers[r.number] += 1;
        self.faults[r.fault] += 1;
    }
}

fn run(carrier: u8, seed: u64, cases: usize) {
    let mut r = Random::new(seed);
    let mut counts = Counts::default();
    for case in 0..cases {
        let health = if r.once_in(3) { Health::Good } else { Health::Hurt };
        let records = match r.below(10) {
            0 => 0,
            1..=6 => 1 + r.below(3),
            7 => 15 + r.below(4),
            _ => 1 + r.below(16),
        };
        let mut a = area(&mut r, carrier, records, health);
        if r.once_in(8) {
            damage(&mut r, &mut a);
        }
        let answer = if case % 8 == 0 { every_room(carrier, &a) } else { compared(carrier, &a, 40_000) };
        counts.add(answer);
    }
    println!("carrier {carrier}: numbers {:?}, faults 20 to 29 {:?}", counts.numbers, &counts.faults[20..]);
    for number in [0, 3, 4] {
        assert!(counts.numbers[number] > 0, "carrier {carrier}: {number} was never answered");
    }
    for fault in [20, 21, 22, 23, 24, 25, 26, 27, 28] {
        assert!(counts.faults[fault] > 0, "carrier {carrier}: fault {fault} was never met");
    }
    assert!(carrier != 3 || counts.faults[29] > 0, "fault 29 was never met");
}

#[test]
fn dhcp4() {
    run(1, 11, 30_000);
}

#[test]
fn dhcp6() {
    run(2, 12, 30_000);
}

#[test]
fn router_advertisement() {
    run(3, 13, 30_000);
}

#[test]
fn ike4() {
    run(4, 14, 30_000);
}

#[test]
fn ike6() {
    run(5, 15, 30_000);
}

#[test]
fn carriers_that_are_none() {
    for carrier in (0..=255).filter(|c| !(1..=5).contains(c)) {
        assert_eq!(every_room(carrier, &[0; 9]).number, 1);
        assert_eq!(compared(carrier, &vec![0; 40_961], 100).number, 1);
    }
}

/// A C caller may pass any number: none of these is cut to its lowest octet, which would be a carrier.
#[test]
fn numbers_that_are_no_octet() {
    let refused = Reading { number: 1, length: 0, found: 0, discarded: 0, fault: 0, place: 0 };
    for low in 0..=5 {
        for carrier in [256, 512, 65_280, 65_536, 1 << 31, usize::MAX - 255].map(|high| high + low) {
            for area in [vec![], vec![0; 9], vec![0; 40_961]] {
                let mut sheet = [MARK; 100];
                assert_eq!(read(carrier, &area, &mut sheet), refused, "carrier {carrier}");
                assert_eq!(sheet, [MARK; 100], "a refusal wrote, carrier {carrier}");
            }
        }
    }
}

#[test]
fn the_longest_input() {
    for carrier in 1..=5 {
        let fill: &[u8] = match carrier {
            1 => &[0],
            3 => &[1, 1, 0, 0, 0, 0, 0, 0],
            _ => &[0, 1, 0, 4, 9, 9, 9, 9],
        };
        let longest: Vec<u8> = fill.iter().copied().cycle().take(40_960).collect();
        assert_eq!(compared(carrier, &longest, 7).number, 0);
        let longer: Vec<u8> = fill.iter().copied().cycle().take(40_961).collect();
        assert_eq!(compared(carrier, &longer, 7).number, 2);
    }
}

/// Several options 162 in areas around the sizes of the buffers in which their data are joined: a record cut at every octet, the options
/// first or last in the area, and the area framed or not.
#[test]
fn options_joined_in_areas_of_every_size() {
    let body = [&[0, 1, 5][..], b"\x01a\x01b\x00", &[4, 192, 0, 2, 1]].concat();
    let instance = [&[0, body.len() as u8][..], &body].concat();
    let option = |data: &[u8]| [&[162, data.len() as u8][..], data].concat();
    for size in [64, 4_095, 4_096, 4_097, 20_479, 20_480, 20_481, 40_959, 40_960] {
        for cut in 0..=instance.len() {
            let options = [option(&instance[..cut]), option(&instance[cut..]), option(&[])].concat();
            let padding = vec![0; size - options.len()];
            let first = [&options[..], &padding].concat();
            let last = [&padding[..], &options].concat();
            for area in [&first, &last] {
                let got = every_room(1, area);
                assert_eq!((got.number, got.found, got.discarded), (0, 1, 0));
            }
            let mut broken = first;
            broken[size - 1] = 162;
            assert_eq!(compared(1, &broken, 40_000).number, 3);
        }
    }
}

/// A body of carrier 2 or 5 with a name, IPv6 addresses and parameters.
fn full(carrier: u8, addresses: &[[u8; 16]], parameters: &[u8]) -> Vec<u8> {
    let list = addresses.concat();
    if carrier == 5 {
        return [&[0, 1, addresses.len() as u8, 3][..], &list, b"a.b", parameters].concat();
    }
    [&[0, 1, 0, 5][..], b"\x01a\x01b\x00", &(list.len() as u16).to_be_bytes(), &list, parameters].concat()
}

/// An option or attribute with a 16-bit code and a 16-bit length.
fn wide(code: u16, body: &[u8]) -> Vec<u8> {
    [&code.to_be_bytes()[..], &(body.len() as u16).to_be_bytes(), body].concat()
}

const USABLE: [u8; 16] = [0x20, 1, 0xd, 0xb8, 0, 0, 0, 0, 0, 0, 0, 0, 0, 0, 0, 9];

/// Runs of foreign options whose lengths lie around one octet's end, then an own one, the reserved bit set or not, and each area cut at every
/// octet near its end.
#[test]
fn foreign_options_of_every_size() {
    let sizes = [0, 1, 3, 4, 144, 254, 255, 256, 257, 400, 511, 512, 1_024];
    for (carrier, code) in [(2, 144), (4, 27), (5, 28)] {
        let own = if carrier == 4 { [&[0, 1, 1, 3][..], &[192, 0, 2, 1], b"a.b"].concat() } else { full(carrier, &[USABLE], &[]) };
        for first in sizes {
            for second in sizes {
                for mark in [0, 0x8000] {
                    let foreign = [wide(code ^ 1, &vec![7; first]), wide((code + 256) | mark, &vec![0; second]), wide(1, &[])].concat();
                    let area = [foreign, wide(code | mark, &own)].concat();
                    let got = every_room(carrier, &area);
                    assert_eq!((got.number, got.found), (0, usize::from(carrier > 2 || mark == 0)));
                    for cut in 1..own.len() + 16 {
                        let part = &area[..area.len() - cut.min(area.len())];
                        compared(carrier, part, 200);
                    }
                }
            }
        }
    }
}

/// Lists of IPv6 addresses with one at each place that is dropped, or that nearly is.
#[test]
fn one_address_at_every_place() {
    let loopback = std::array::from_fn(|i| u8::from(i == 15));
    let multicast = std::array::from_fn(|i| if i == 0 { 255 } else { 2 });
    let unspecified = [0; 16];
    let nearly = std::array::from_fn(|i| u8::from(i == 15 || i == 7));
    let link = std::array::from_fn(|i| [0xfe, 0x80].get(i).copied().unwrap_or(1));
    for (carrier, code) in [(2, 144), (5, 28)] {
        for many in (1..=17).chain([62, 63]) {
            for place in 0..many {
                for (one, dropped) in [(loopback, true), (multicast, true), (unspecified, false), (nearly, false), (link, false)] {
                    let mut addresses = vec![USABLE; many];
                    addresses[place] = one;
                    let got = compared(carrier, &wide(code, &full(carrier, &addresses, &[])), 2_000);
                    let kept = many - usize::from(dropped);
                    assert_eq!(got.length, if kept == 0 { 7 } else { 7 + 8 + 5 + 3 + 16 * kept });
                }
            }
        }
    }
}

/// Parameters of every length up to the limit and one past it, which are copied by blocks or at once according to their length.
#[test]
fn parameters_of_every_length() {
    for long in 0..=1_021u16 {
        let value: Vec<u8> = (0..long).map(|i| (i % 251) as u8).collect();
        let parameters = wide(65_280, &value);
        for (carrier, code) in [(2, 144), (5, 28)] {
            let got = every_room(carrier, &wide(code, &full(carrier, &[USABLE], &parameters)));
            assert_eq!(got.fault, if long > 1_020 { 24 } else { 0 });
        }
    }
}

#[test]
fn octets_without_any_order() {
    let mut r = Random::new(16);
    for _ in 0..20_000 {
        let long = r.below(80);
        let a: Vec<u8> = (0..long).map(|_| r.pick(&[0, 1, 2, 4, 8, 27, 28, 97, 128, 144, 162, 255])).collect();
        for carrier in 1..=5 {
            compared(carrier, &a, 200);
        }
    }
}
