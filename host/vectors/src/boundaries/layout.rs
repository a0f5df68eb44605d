//! Areas and sheets laid out after RULES B1 and S1 to S5. Nothing here is taken
//! from the reference, so that what a case states has a source of its own.

/// The name N of the boundary pieces (RULES K1), doh1.example.com, as RFC 9463
/// shows it in Figure 2.
pub const N: &[u8] = &[
    0x04, 0x64, 0x6f, 0x68, 0x31, 0x07, 0x65, 0x78, 0x61, 0x6d, 0x70, 0x6c, 0x65, 0x03, 0x63, 0x6f,
    0x6d, 0x00,
];
/// The parameters P of the boundary pieces, alpn "dot".
pub const P: &[u8] = &[0x00, 0x01, 0x00, 0x04, 0x03, 0x64, 0x6f, 0x74];
/// The address A of the boundary pieces, 2001:db8:122:300::1.
pub const A: &[u8] = &[
    0x20, 0x01, 0x0d, 0xb8, 0x01, 0x22, 3, 0, 0, 0, 0, 0, 0, 0, 0, 1,
];
/// The address 192.0.2.1 of K8.
pub const A4: &[u8] = &[192, 0, 2, 1];

/// The octets that a row of hexadecimal digits shows, spaces left out.
pub fn hex(text: &str) -> Vec<u8> {
    let digits: Vec<u32> = text
        .chars()
        .filter(|sign| !sign.is_whitespace())
        .map(|sign| sign.to_digit(16).expect("a hexadecimal digit"))
        .collect();
    digits
        .chunks(2)
        .map(|pair| (pair[0] * 16 + pair[1]) as u8)
        .collect()
}

/// A number in two octets, most significant first.
pub fn two(number: usize) -> [u8; 2] {
    u16::try_from(number)
        .expect("a length of 16 bits")
        .to_be_bytes()
}

/// A number in one octet.
pub fn one(number: usize) -> [u8; 1] {
    [u8::try_from(number).expect("a length of 8 bits")]
}

/// A good address of the carrier's width, told apart by its last octet.
pub fn address(carrier: u8, last: u8) -> Vec<u8> {
    let mut address = if width(carrier) == 4 { A4 } else { A }.to_vec();
    *address.last_mut().expect("an address has octets") = last;
    address
}

/// So many good addresses of the carrier's width, the last octets from 1 on.
pub fn addresses(carrier: u8, count: u8) -> Vec<u8> {
    (1..=count)
        .flat_map(|last| address(carrier, last))
        .collect()
}

/// Octets of an address: 4 for carriers 1 and 4, else 16.
pub fn width(carrier: u8) -> usize {
    match carrier {
        1 | 4 => 4,
        _ => 16,
    }
}

/// A parameter: 16-bit key, 16-bit length, value.
pub fn param(key: u16, value: &[u8]) -> Vec<u8> {
    [&key.to_be_bytes()[..], &two(value.len()), value].concat()
}

/// Parameters of so many octets: the key 65,280 of K8 and zeros.
pub fn params_of(length: usize) -> Vec<u8> {
    param(65_280, &vec![0; length - 4])
}

/// A name in wire form with labels of these lengths, all of the letter n.
pub fn name_of(lengths: &[usize]) -> Vec<u8> {
    let mut name = Vec::new();
    for length in lengths {
        name.extend(one(*length));
        name.extend(vec![b'n'; *length]);
    }
    name.push(0);
    name
}

/// The name of one label of one letter, 3 octets, the shortest there is.
pub fn letter_name(letter: u8) -> Vec<u8> {
    vec![1, letter, 0]
}

/// The labels of a wire name joined by dots, without a final dot.
pub fn text(wire: &[u8]) -> Vec<u8> {
    let mut labels = Vec::new();
    let mut rest = wire;
    while let [length @ 1..=255, after @ ..] = rest {
        let (label, behind) = after.split_at(usize::from(*length));
        labels.push(label);
        rest = behind;
    }
    labels.join(&b'.')
}

/// Where the name of a block with so many addresses begins, from the block's
/// first octet; in carrier 1 that of the first instance in the joined data
/// (RULES B1).
pub fn name_at(carrier: u8, addresses: usize) -> usize {
    match carrier {
        // Instance length, priority, ADN length.
        1 => 2 + 2 + 1,
        // Code and length, priority, ADN length.
        2 => 4 + 2 + 2,
        // Type and length, priority, lifetime, ADN length.
        3 => 2 + 2 + 4 + 2,
        // Type and length, priority, number of addresses, ADN length, addresses.
        _ => 4 + 2 + 1 + 1 + addresses * width(carrier),
    }
}

/// Where the name of a sheet's first record begins: the head, priority,
/// lifetime, mode, name length (RULES S1, S2).
pub const FIRST_NAME: usize = 7 + 2 + 4 + 1 + 1;

/// A resolver, to be laid out in an area or in a sheet.
#[derive(Clone)]
pub struct Resolver {
    pub priority: u16,
    pub lifetime: u32,
    /// In wire form, for carriers 4 and 5 too.
    pub name: Vec<u8>,
    /// Addresses and parameters; none for name only.
    pub full: Option<(Vec<u8>, Vec<u8>)>,
}

impl Resolver {
    /// Name only, without a lifetime.
    pub fn named(priority: u16, name: &[u8]) -> Self {
        Resolver {
            priority,
            lifetime: 0,
            name: name.to_vec(),
            full: None,
        }
    }

    /// The full form, without a lifetime.
    pub fn full(priority: u16, name: &[u8], addresses: &[u8], params: &[u8]) -> Self {
        let mut resolver = Resolver::named(priority, name);
        resolver.full = Some((addresses.to_vec(), params.to_vec()));
        resolver
    }

    /// The smallest good form that the carrier has: name only in carriers 1 to
    /// 3, one address and no parameters in carriers 4 and 5.
    pub fn small(carrier: u8, priority: u16, name: &[u8]) -> Self {
        match carrier {
            1..=3 => Resolver::named(priority, name),
            _ => Resolver::full(priority, name, &address(carrier, 1), &[]),
        }
    }

    /// The same with a lifetime.
    pub fn living(mut self, lifetime: u32) -> Self {
        self.lifetime = lifetime;
        self
    }

    /// The fields of a block, or in carrier 1 of an instance without L, in the
    /// order of the table; in carrier 3 without the zeros.
    pub fn fields(&self, carrier: u8) -> Vec<u8> {
        let priority = self.priority.to_be_bytes();
        let (addresses, params) = self.full.clone().unwrap_or_default();
        if carrier >= 4 {
            let count = addresses.len() / width(carrier);
            let name = text(&self.name);
            let counts = [one(count), one(name.len())].concat();
            return [&priority[..], &counts, &addresses, &name, &params].concat();
        }
        let length = |octets: &[u8]| match carrier {
            1 => one(octets.len()).to_vec(),
            _ => two(octets.len()).to_vec(),
        };
        let mut fields = priority.to_vec();
        if carrier == 3 {
            fields.extend(self.lifetime.to_be_bytes());
        }
        fields.extend([length(&self.name), self.name.clone()].concat());
        if self.full.is_some() {
            fields.extend([length(&addresses), addresses].concat());
            if carrier == 3 {
                fields.extend(two(params.len()));
            }
            fields.extend(params);
        }
        fields
    }

    /// An option or attribute, or in carrier 1 an instance with its length L.
    pub fn block(&self, carrier: u8) -> Vec<u8> {
        let fields = self.fields(carrier);
        match carrier {
            1 => instance(&fields),
            _ => option(carrier, &fields),
        }
    }

    /// The record in a sheet.
    pub fn record(&self, carrier: u8) -> Vec<u8> {
        let mut record = self.priority.to_be_bytes().to_vec();
        record.extend(self.lifetime.to_be_bytes());
        record.push(u8::from(self.full.is_some()));
        record.extend(one(self.name.len()));
        record.extend(&self.name);
        if let Some((addresses, params)) = &self.full {
            record.extend(one(addresses.len() / width(carrier)));
            record.extend(addresses);
            record.extend(two(params.len()));
            record.extend(params);
        }
        record
    }
}

/// Carrier 1: 16-bit L and what it counts.
fn instance(fields: &[u8]) -> Vec<u8> {
    [&two(fields.len())[..], fields].concat()
}

/// The carrier's own code or type.
pub fn own_code(carrier: u8) -> u16 {
    match carrier {
        1 => 162,
        2 | 3 => 144,
        4 => 27,
        _ => 28,
    }
}

/// An option or attribute of the carrier's own code around the data; in
/// carrier 3 with the fewest zeros behind.
pub fn option(carrier: u8, data: &[u8]) -> Vec<u8> {
    coded(carrier, own_code(carrier), data)
}

/// An option or attribute of any code around the data; in carrier 3 with the
/// fewest zeros behind.
pub fn coded(carrier: u8, code: u16, data: &[u8]) -> Vec<u8> {
    let code = code.to_be_bytes();
    match carrier {
        1 => [&code[1..], &one(data.len()), data].concat(),
        3 => {
            let eights = (2 + data.len()).div_ceil(8);
            let mut option = [&code[1..], &one(eights), data].concat();
            option.resize(eights * 8, 0);
            option
        }
        _ => [&code[..], &two(data.len()), data].concat(),
    }
}

/// Carrier 1: joined data as options 162 of 255 octets and a last one of 1 to
/// 255.
pub fn options_162(joined: &[u8]) -> Vec<u8> {
    joined
        .chunks(255)
        .flat_map(|data| option(1, data))
        .collect()
}

/// The octets that are written for these resolvers.
pub fn area(carrier: u8, resolvers: &[Resolver]) -> Vec<u8> {
    let blocks: Vec<u8> = resolvers
        .iter()
        .flat_map(|resolver| resolver.block(carrier))
        .collect();
    match carrier {
        1 => options_162(&blocks),
        _ => blocks,
    }
}

/// The sheet of these resolvers, which stand in its order.
pub fn sheet(carrier: u8, resolvers: &[Resolver]) -> Vec<u8> {
    let mut sheet = hex("52 53 56 00 01");
    sheet.push(carrier);
    sheet.extend(one(resolvers.len()));
    for resolver in resolvers {
        sheet.extend(resolver.record(carrier));
    }
    sheet
}
