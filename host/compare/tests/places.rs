//! The place of a bad name (RULES N5, W11, T8), which the library, the reference and a rule of its own (`compare::places`) give alike: all short names of
//! a small alphabet, names at the limits and names changed at random, each in a block of every carrier that has its form, with addresses, other blocks
//! and other faults around it, and in the first to third record of a sheet.

use compare::generate::width;
use compare::places::{is_name, least_place, place, Form};
use compare::random::Random;
use compare::{Reading, Written, SIDES};

const MARK: u8 = 0x3c;

/// The name a.b of the good blocks and records, in wire form and as text.
const GOOD: &[u8] = b"\x01a\x01b\x00";
const GOOD_TEXT: &[u8] = b"a.b";

/// The name a_ of the second bad block.
const BAD: &[u8] = b"\x02a_\x00";
const BAD_TEXT: &[u8] = b"a_";

/// A block, in carrier 1 an instance: its fault, 0 if it is good, and for 22 the place in it.
#[derive(Clone)]
struct Block {
    octets: Vec<u8>,
    fault: usize,
    place: usize,
}

/// A list of good addresses.
fn addresses(carrier: u8, many: usize) -> Vec<u8> {
    vec![32; many * width(carrier)]
}

/// A block of priority 1, in carrier 1 an instance, and where its name begins in it (RULES B1).
fn block(carrier: u8, name: &[u8], many: usize) -> (Vec<u8>, usize) {
    let list = addresses(carrier, many);
    let (short, wide) = (name.len() as u8, (name.len() as u16).to_be_bytes());
    let size = (list.len() as u16).to_be_bytes();
    let mut body = match carrier {
        1 => [&[0, 1, short][..], name, &[list.len() as u8], &list].concat(),
        2 => [&[0, 1][..], &wide, name, &size, &list].concat(),
        3 => [&[0, 1, 0, 0, 0, 9][..], &wide, name, &size, &list, &[0, 0]].concat(),
        _ => [&[0, 1, many as u8, short][..], &list, name].concat(),
    };
    while carrier == 3 && (body.len() + 2) % 8 != 0 {
        body.push(0);
    }
    let length = (body.len() as u16).to_be_bytes();
    match carrier {
        1 => ([&length[..], &body].concat(), 2 + 3),
        2 => ([&[0, 144][..], &length, &body].concat(), 4 + 4),
        3 => ([&[144, ((body.len() + 2) / 8) as u8][..], &body].concat(), 2 + 8),
        _ => ([&[0, 23 + carrier][..], &length, &body].concat(), 4 + 4 + list.len()),
    }
}

/// A foreign option of some length, in carrier 1 perhaps padding.
fn foreign(r: &mut Random, carrier: u8) -> Vec<u8> {
    match carrier {
        1 if r.once_in(2) => vec![0; r.below(4)],
        1 => vec![12, 3, 7, 7, 7],
        3 => vec![1, 1, 7, 7, 7, 7, 7, 7],
        _ => vec![0, 1, 0, 2, 7, 7],
    }
}

/// Joined data as options 162 cut anywhere, with other options between.
fn cut(r: &mut Random, joined: &[u8]) -> Vec<u8> {
    let mut area = Vec::new();
    let mut rest = joined;
    while !rest.is_empty() {
        let (data, behind) = rest.split_at(1 + r.below(rest.len().min(255)));
        area.extend(foreign(r, 1));
        area.extend([162, data.len() as u8]);
        area.extend(data);
        rest = behind;
    }
    area
}

/// A block with this name and so many addresses, whose name is wrong at a place or good.
fn named(carrier: u8, name: &[u8], many: usize, wrong: Option<usize>) -> Block {
    let (octets, at) = block(carrier, name, many);
    match wrong {
        Some(place) => Block { octets, fault: 22, place: at + place },
        None => Block { octets, fault: 0, place: 0 },
    }
}

/// The same block with priority 0, which is found before the name is looked at.
fn alias(carrier: u8, of: &Block) -> Block {
    let mut octets = of.octets.clone();
    octets[if carrier == 1 || carrier == 3 { 3 } else { 5 }] = 0;
    Block { octets, fault: 21, place: 0 }
}

/// The block between good ones, perhaps behind one of priority 0, perhaps before a second one whose name is wrong.
fn around(r: &mut Random, carrier: u8, given: Block) -> Vec<Block> {
    let (form, good, bad) = if carrier > 3 { (Form::Text, GOOD_TEXT, BAD_TEXT) } else { (Form::Wire, GOOD, BAD) };
    let good = named(carrier, good, 1, None);
    let mut blocks = vec![good.clone(); r.below(3)];
    if r.once_in(5) {
        blocks.push(alias(carrier, if r.once_in(2) { &good } else { &given }));
    }
    blocks.push(given);
    blocks.extend(vec![good.clone(); r.below(3)]);
    if r.once_in(3) {
        blocks.push(named(carrier, bad, r.below(3), Some(place(form, bad))));
        blocks.extend(vec![good; r.below(2)]);
    }
    blocks
}

/// An area of these blocks.
fn area(r: &mut Random, carrier: u8, blocks: &[Block]) -> Vec<u8> {
    if carrier == 1 {
        let joined: Vec<u8> = blocks.iter().flat_map(|block| block.octets.clone()).collect();
        return cut(r, &joined);
    }
    let mut area = Vec::new();
    for block in blocks {
        if r.once_in(3) {
            area.extend(foreign(r, carrier));
        }
        area.extend(&block.octets);
    }
    area
}

/// What a reading tells of these blocks: the first with a fault gives fault and place. In carrier 1 they are one block, and the place counts in all of it.
fn told(carrier: u8, blocks: &[Block], length: usize) -> Reading {
    let discarded = blocks.iter().filter(|block| block.fault != 0).count();
    let first = blocks.iter().position(|block| block.fault != 0);
    let (fault, place) = first.map_or((0, 0), |at| (blocks[at].fault, blocks[at].place));
    if carrier > 1 {
        return Reading { number: 0, length, found: blocks.len(), discarded, fault, place };
    }
    let before: usize = blocks[..first.unwrap_or(0)].iter().map(|block| block.octets.len()).sum();
    let place = if fault == 22 { before + place } else { 0 };
    Reading { number: 0, length, found: 1, discarded: discarded.min(1), fault, place }
}

/// Reads the name in a block with other ones around it.
fn read_in(r: &mut Random, carrier: u8, name: &[u8], wanted: Option<usize>) {
    let many = if wanted.is_none() { 1 + r.below(3) } else { r.below(4) };
    let blocks = around(r, carrier, named(carrier, name, many, wanted));
    let area = area(r, carrier, &blocks);
    for (side, read, _) in SIDES {
        let mut sheet = vec![MARK; 4_000];
        let got = read(carrier, &area, &mut sheet);
        assert_eq!(got, told(carrier, &blocks, got.length), "{side}, carrier {carrier}, name {name:02x?}, area {area:02x?}");
        // With less room the reading is refused, and a refusal has no place.
        let refused = Reading { number: 5, length: 0, found: 0, discarded: 0, fault: 0, place: 0 };
        assert_eq!(read(carrier, &area, &mut sheet[..got.length - 1]), refused, "{side}, carrier {carrier}");
    }
}

/// A record of a sheet, name only or with addresses (RULES S2).
fn record(carrier: u8, name: &[u8], many: Option<usize>) -> Vec<u8> {
    let head = [&[0, 1, 0, 0, 0, 0, u8::from(many.is_some()), name.len() as u8][..], name].concat();
    match many {
        None => head,
        Some(many) => [&head[..], &[many as u8], &addresses(carrier, many), &[0, 0]].concat(),
    }
}

/// Writes a sheet with the name in its first, second or third record.
fn write_in(r: &mut Random, carrier: u8, name: &[u8], wanted: Option<usize>) {
    let mut shape = || (carrier > 3 || r.once_in(2)).then_some(1 + usize::from(r.once_in(2)));
    let good: Vec<Vec<u8>> = (0..2).map(|_| record(carrier, GOOD, shape())).collect();
    let bad = record(carrier, name, shape());
    for before in 0..3 {
        let mut records = good.clone();
        records.insert(before, bad.clone());
        let sheet = [b"RSV\x00\x01", &[carrier, 3][..], &records.concat()].concat();
        let start: usize = 7 + records[..before].iter().map(Vec::len).sum::<usize>();
        for (side, _, write) in SIDES {
            for room in [0, 4_000] {
                let mut octets = vec![MARK; room];
                let got = write(&sheet, &mut octets);
                let wanted = match wanted {
                    Some(place) => Written { number: 22, length: 0, place: start + 8 + place },
                    None => Written { number: if room == 0 { 5 } else { 0 }, length: got.length, place: 0 },
                };
                assert_eq!(got, wanted, "{side}, carrier {carrier}, room {room}, sheet {sheet:02x?}");
                assert!(octets[got.length..].iter().all(|&octet| octet == MARK), "{side}: an octet past the result was changed");
            }
        }
    }
}

/// Both calls in every carrier that has the form; a sheet has names in wire form for all of them.
fn agree(r: &mut Random, form: Form, name: &[u8]) -> Option<usize> {
    let wanted = (!is_name(form, name)).then(|| place(form, name));
    let short = name.len() <= 255;
    let carriers = if form == Form::Wire { 1..=3 } else { 4..=5 };
    for carrier in carriers.filter(|&carrier| short || carrier == 2 || carrier == 3) {
        read_in(r, carrier, name, wanted);
    }
    if form == Form::Wire && short {
        for carrier in 1..=5 {
            write_in(r, carrier, name, wanted);
        }
    }
    wanted
}

/// All strings over the alphabet of at most so many octets.
fn strings(alphabet: &[u8], longest: usize) -> Vec<Vec<u8>> {
    let mut all = vec![vec![]];
    let mut last = all.clone();
    for _ in 0..longest {
        last = last.iter().flat_map(|s| alphabet.iter().map(move |&octet| [&s[..], &[octet]].concat())).collect();
        all.extend(last.clone());
    }
    all
}

#[test]
fn all_short_names() {
    let mut r = Random::new(41);
    for (form, alphabet, longest) in [(Form::Wire, &b"\x00\x01\x02\x40a-_"[..], 5), (Form::Text, b"a-._\x00Z", 6)] {
        let mut met = [0; 8];
        for name in strings(alphabet, longest) {
            match agree(&mut r, form, &name) {
                Some(at) => {
                    assert_eq!(at, least_place(form, &name), "{form:?} {name:02x?}");
                    met[at] += 1;
                }
                None => met[7] += 1,
            }
        }
        println!("{form:?}: places 0 to 6 {:?}, names {}", &met[..7], met[7]);
        assert!(met[..=longest].iter().chain(&met[7..]).all(|&times| times > 0));
    }
}

/// Labels of these lengths in either form, without the root.
fn labels(form: Form, lengths: &[usize]) -> Vec<u8> {
    let label = |&length: &usize| match form {
        Form::Wire => [&[length as u8][..], &vec![b'x'; length]].concat(),
        Form::Text => [&b"."[..], &vec![b'x'; length]].concat(),
    };
    let all: Vec<u8> = lengths.iter().flat_map(label).collect();
    all[usize::from(form == Form::Text)..].to_vec()
}

/// Label lengths that come near 255 octets in wire form: long labels and then a last one or two of every length, short ones throughout, and single
/// labels around 63.
fn lengths_at_the_limits() -> Vec<Vec<usize>> {
    let mut all: Vec<Vec<usize>> = (57..=65).map(|last| vec![63, 63, 63, last]).collect();
    all.extend((55..=62).flat_map(|third| (1..=3).map(move |last| vec![63, 63, 63, third, last])));
    all.extend((124..=128).map(|many| vec![1; many]));
    all.extend([1, 2, 61, 62, 63, 64, 65].map(|only| vec![only]));
    all.extend([61, 62, 63, 64].map(|second| vec![1, second]));
    all
}

/// Each of those whole, cut by a few octets, and with some octets behind or in the place of the last ones.
#[test]
fn names_at_the_limits() {
    let mut r = Random::new(42);
    let mut names = 0;
    for form in [Form::Wire, Form::Text] {
        for lengths in lengths_at_the_limits() {
            let all = labels(form, &lengths);
            for cut in 0..4.min(all.len()) {
                let part = &all[..all.len() - cut];
                for end in [&b""[..], b"\x00", b"\x00\x00", b"\x01", b"\x02", b"-", b"--", b"-x", b"-.", b".", b".x", b"_", b"\x3f", b"\x40", b"\xc0\x0c"] {
                    names += usize::from(agree(&mut r, form, &[part, end].concat()).is_none());
                }
            }
        }
    }
    println!("{names} names");
    assert!(names > 100);
}

/// Names with labels of many lengths, a few octets changed, left out or put in, or cut.
fn changed(r: &mut Random, form: Form) -> Vec<u8> {
    let goal = r.pick(&[3, 10, 30, 70, 200, 240, 250, 254, 256, 300]);
    let mut lengths = Vec::new();
    let mut octets = 0;
    while octets < goal {
        lengths.push(match r.below(5) {
            0 => 63,
            1 => 1,
            2 => (goal - octets).min(64),
            _ => 1 + r.below(20),
        });
        octets += 1 + lengths[lengths.len() - 1];
    }
    let mut name = labels(form, &lengths);
    if form == Form::Wire {
        name.push(0);
    }
    for _ in 0..r.below(4) {
        let at = r.below(name.len());
        let octet = if r.once_in(4) { r.octet() } else { r.pick(b"-\x00.\x01\x02\x3e\x3f\x40-_xX9") };
        match r.below(6) {
            0 => name.insert(at, octet),
            1 => drop(name.remove(at)),
            2 => name.truncate(at + 1),
            _ => name[at] = octet,
        }
        if name.is_empty() {
            break;
        }
    }
    name.truncate(if form == Form::Wire { 400 } else { 255 });
    name
}

#[test]
fn names_changed_at_random() {
    let mut r = Random::new(43);
    for form in [Form::Wire, Form::Text] {
        let (mut names, mut far) = (0, 0);
        for _ in 0..4_000 {
            let name = changed(&mut r, form);
            match agree(&mut r, form, &name) {
                Some(at) => far += usize::from(at > 180),
                None => names += 1,
            }
        }
        println!("{form:?}: {names} names, {far} wrong behind octet 180");
        assert!(names > 300 && far > 100);
    }
}
