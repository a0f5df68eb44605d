//! Octets of RULES, builders of areas and sheets, and calls that also
//! test what every call promises of its buffer.

use dnr_reference::{read, write, Reading, Written};

/// doh1.example.com in wire form.
pub const N: &[u8] = b"\x04doh1\x07example\x03com\0";
/// alpn "dot".
pub const P: &[u8] = b"\x00\x01\x00\x04\x03dot";
/// 2001:db8:122:300::1.
pub const A: &[u8] = &[0x20, 1, 0x0d, 0xb8, 1, 0x22, 3, 0, 0, 0, 0, 0, 0, 0, 0, 1];
/// 192.0.2.1.
pub const A4: &[u8] = &[192, 0, 2, 1];

pub fn hex(text: &str) -> Vec<u8> {
    let digits: Vec<char> = text.chars().filter(|c| !c.is_whitespace()).collect();
    digits
        .chunks(2)
        .map(|pair| u8::from_str_radix(&pair.iter().collect::<String>(), 16).unwrap())
        .collect()
}

/// Name, or name with addresses and parameters.
pub type Fields<'a> = (&'a [u8], Option<(&'a [u8], &'a [u8])>);

pub fn full<'a>(name: &'a [u8], addresses: &'a [u8], params: &'a [u8]) -> Fields<'a> {
    (name, Some((addresses, params)))
}

fn u16_of(number: usize) -> [u8; 2] {
    u16::try_from(number).unwrap().to_be_bytes()
}

/// The fields of a block or instance after its header, as RULES B1 lists them;
/// in carrier 3 without padding.
pub fn body(carrier: u8, priority: u16, lifetime: u32, (name, parts): Fields) -> Vec<u8> {
    let mut octets = priority.to_be_bytes().to_vec();
    let length = |octets: usize| match carrier {
        1 => vec![octets as u8],
        _ => u16_of(octets).to_vec(),
    };
    if carrier >= 4 {
        let width = if carrier == 4 { 4 } else { 16 };
        let (addresses, params) = parts.unwrap_or((&[], &[]));
        octets.extend([(addresses.len() / width) as u8, name.len() as u8]);
        octets.extend([addresses, name, params].concat());
        return octets;
    }
    if carrier == 3 {
        octets.extend(lifetime.to_be_bytes());
    }
    octets.extend(length(name.len()));
    octets.extend(name);
    if let Some((addresses, params)) = parts {
        octets.extend(length(addresses.len()));
        octets.extend(addresses);
        if carrier == 3 {
            octets.extend(length(params.len()));
        }
        octets.extend(params);
    }
    octets
}

/// An option or attribute around `data`; in carrier 3 zeros are added.
pub fn option(carrier: u8, data: &[u8]) -> Vec<u8> {
    let mut octets = match carrier {
        1 => vec![162, data.len() as u8],
        2 => [[0, 144], u16_of(data.len())].concat(),
        3 => vec![144, (data.len() + 2).div_ceil(8) as u8],
        _ => [[0, carrier + 23], u16_of(data.len())].concat(),
    };
    octets.extend(data);
    while carrier == 3 && octets.len() % 8 != 0 {
        octets.push(0);
    }
    octets
}

/// One record as the carrier has it: an option, or in carrier 1 an instance.
pub fn block(carrier: u8, priority: u16, fields: Fields) -> Vec<u8> {
    let body = body(carrier, priority, 0, fields);
    match carrier {
        1 => [u16_of(body.len()).to_vec(), body].concat(),
        _ => option(carrier, &body),
    }
}

/// An area of one DHCPv6 option with N, A and these parameters.
pub fn v6_with_params(params: &[u8]) -> Vec<u8> {
    block(2, 1, full(N, A, params))
}

/// A record of a sheet.
pub fn record(carrier: u8, priority: u16, lifetime: u32, (name, parts): Fields) -> Vec<u8> {
    let width = if carrier == 1 || carrier == 4 { 4 } else { 16 };
    let mut octets = priority.to_be_bytes().to_vec();
    octets.extend(lifetime.to_be_bytes());
    octets.extend([parts.is_some() as u8, name.len() as u8]);
    octets.extend(name);
    if let Some((addresses, params)) = parts {
        octets.push((addresses.len() / width) as u8);
        octets.extend(addresses);
        octets.extend(u16_of(params.len()));
        octets.extend(params);
    }
    octets
}

pub fn sheet(carrier: u8, records: &[Vec<u8>]) -> Vec<u8> {
    let header = [b'R', b'S', b'V', 0, 1, carrier, records.len() as u8];
    [&header[..], &records.concat()].concat()
}

const UNTOUCHED: u8 = 0xa5;

/// Reads into `room` octets. Past the sheet nothing is changed, and a refusal
/// has zeros and changes nothing.
pub fn read_in(room: usize, carrier: u8, area: &[u8]) -> (Reading, Vec<u8>) {
    let mut out = vec![UNTOUCHED; room];
    let reading = read(carrier, area, &mut out);
    if reading.number != 0 {
        let others = [
            reading.length,
            reading.found,
            reading.discarded,
            reading.fault,
            reading.place,
        ];
        assert_eq!(others, [0; 5]);
    }
    assert!(reading.place == 0 || reading.fault == 22);
    assert!(out[reading.length..]
        .iter()
        .all(|octet| *octet == UNTOUCHED));
    out.truncate(reading.length);
    (reading, out)
}

pub fn read_done(carrier: u8, area: &[u8]) -> (Reading, Vec<u8>) {
    let (reading, sheet) = read_in(40_000, carrier, area);
    assert_eq!(reading.number, 0);
    (reading, sheet)
}

/// Found, discarded and first fault of a reading that is done.
pub fn counts(carrier: u8, area: &[u8]) -> (usize, usize, usize) {
    let reading = read_done(carrier, area).0;
    (reading.found, reading.discarded, reading.fault)
}

/// The fault of an area whose only block is discarded, 0 if it is kept.
pub fn fault_of(carrier: u8, area: &[u8]) -> usize {
    let (found, discarded, fault) = counts(carrier, area);
    assert_eq!((found, discarded), (1, usize::from(fault != 0)));
    fault
}

/// The number of a reading.
pub fn read_number(carrier: u8, area: &[u8]) -> usize {
    read_in(40_000, carrier, area).0.number
}

/// Writes into `room` octets, with the same tests as `read_in`.
pub fn written_in(room: usize, sheet: &[u8]) -> (Written, Vec<u8>) {
    let mut out = vec![UNTOUCHED; room];
    let written = write(sheet, &mut out);
    if written.number != 0 {
        assert_eq!(written.length, 0);
    }
    assert!(written.place == 0 || written.number == 22);
    assert!(out[written.length..]
        .iter()
        .all(|octet| *octet == UNTOUCHED));
    out.truncate(written.length);
    (written, out)
}

/// The number of a writing and its octets.
pub fn write_in(room: usize, sheet: &[u8]) -> (usize, Vec<u8>) {
    let (written, octets) = written_in(room, sheet);
    (written.number, octets)
}

pub fn write_number(sheet: &[u8]) -> usize {
    write_in(40_960, sheet).0
}

/// The octets are written for the sheet, with no less room, and read back.
pub fn goes_round(carrier: u8, octets: &[u8], sheet: &[u8]) {
    assert_eq!(write_in(octets.len(), sheet), (0, octets.to_vec()));
    let (reading, read_sheet) = read_in(sheet.len(), carrier, octets);
    assert_eq!(
        (reading.number, reading.discarded, reading.fault),
        (0, 0, 0)
    );
    assert_eq!(read_sheet, sheet);
    if !octets.is_empty() {
        assert_eq!(write_in(octets.len() - 1, sheet).0, 5);
    }
    assert_eq!(read_in(sheet.len() - 1, carrier, octets).0.number, 5);
}

/// A small generator of numbers, the same ones every time (splitmix64).
pub struct Numbers(pub u64);

impl Numbers {
    pub fn next(&mut self) -> u64 {
        self.0 = self.0.wrapping_add(0x9e37_79b9_7f4a_7c15);
        let mut mixed = self.0;
        mixed = (mixed ^ (mixed >> 30)).wrapping_mul(0xbf58_476d_1ce4_e5b9);
        mixed = (mixed ^ (mixed >> 27)).wrapping_mul(0x94d0_49bb_1331_11eb);
        mixed ^ (mixed >> 31)
    }

    pub fn below(&mut self, bound: usize) -> usize {
        (self.next() % bound as u64) as usize
    }

    pub fn pick<T: Copy>(&mut self, from: &[T]) -> T {
        from[self.below(from.len())]
    }
}
