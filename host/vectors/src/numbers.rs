//! A small generator of numbers, the same ones every time (splitmix64).

pub struct Numbers(u64);

impl Numbers {
    pub fn new(seed: u64) -> Self {
        Numbers(seed)
    }

    pub fn next(&mut self) -> u64 {
        self.0 = self.0.wrapping_add(0x9e37_79b9_7f4a_7c15);
        let mut mixed = self.0;
        mixed = (mixed ^ (mixed >> 30)).wrapping_mul(0xbf58_476d_1ce4_e5b9);
        mixed = (mixed ^ (mixed >> 27)).wrapping_mul(0x94d0_49bb_1331_11eb);
        mixed ^ (mixed >> 31)
    }

    pub fn below(&mut self, bound: usize) -> usize {
        (self.next() % bound as u64) as usize
    }

    pub fn pick<T: Copy>(&mut self, from: &[T]) -> T {
        from[self.below(from.len())]
    }

    pub fn octet(&mut self) -> u8 {
        self.next() as u8
    }

    /// Changes, cuts, extends or takes out, with octets of the given kind.
    pub fn damage(&mut self, octets: &mut Vec<u8>, kind: &[u8]) {
        let place = self.below(octets.len().max(1));
        let octet = self.pick(kind);
        match self.below(6) {
            0 | 1 if !octets.is_empty() => octets[place] = octet,
            2 if !octets.is_empty() => octets[place] ^= 1 << self.below(8),
            3 => octets.truncate(place),
            4 if !octets.is_empty() => {
                octets.remove(place);
            }
            _ => {
                let place = self.pick(&[place, octets.len()]);
                octets.insert(place, octet);
            }
        }
    }
}
