//! Fields taken off a slice and put into a lent buffer, most significant
//! octet first (RULES C2).

/// Takes `count` octets off the front of `rest`; none where fewer are left.
pub fn take<'a>(rest: &mut &'a [u8], count: usize) -> Option<&'a [u8]> {
    rest.split_off(..count)
}

fn take_array<const N: usize>(rest: &mut &[u8]) -> Option<[u8; N]> {
    let (first, after) = rest.split_first_chunk()?;
    *rest = after;
    Some(*first)
}

pub fn take_u8(rest: &mut &[u8]) -> Option<u8> {
    take_array(rest).map(u8::from_be_bytes)
}

pub fn take_u16(rest: &mut &[u8]) -> Option<u16> {
    take_array(rest).map(u16::from_be_bytes)
}

pub fn take_u32(rest: &mut &[u8]) -> Option<u32> {
    take_array(rest).map(u32::from_be_bytes)
}

/// Fills a lent buffer from its front. The lengths are tested before a pen is
/// made, so there is always room for what is put.
pub struct Pen<'o> {
    out: &'o mut [u8],
    at: usize,
}

impl<'o> Pen<'o> {
    pub fn new(out: &'o mut [u8]) -> Self {
        Pen { out, at: 0 }
    }

    /// The next `count` octets, to be filled by the caller.
    pub fn space(&mut self, count: usize) -> &mut [u8] {
        let start = self.at;
        self.at += count;
        &mut self.out[start..self.at]
    }

    pub fn put(&mut self, octets: &[u8]) {
        self.space(octets.len()).copy_from_slice(octets);
    }

    pub fn put_u8(&mut self, number: u8) {
        self.put(&[number]);
    }

    pub fn put_u16(&mut self, number: u16) {
        self.put(&number.to_be_bytes());
    }

    pub fn put_u32(&mut self, number: u32) {
        self.put(&number.to_be_bytes());
    }
}
