//! A fault or a refusal with its place (RULES N5, W11, T8).

use crate::numbers::NAME;

/// Why a block is discarded, or why a writing is refused.
#[derive(Clone, Copy)]
pub struct Fault {
    pub number: u8,
    /// The octet at which the name goes wrong; 0 but for 22. It is one of an
    /// area or a sheet, so 16 bits have room for it.
    place: u16,
}

impl Fault {
    pub const NONE: Fault = Fault {
        number: 0,
        place: 0,
    };

    /// 22, at this octet of the name.
    pub fn in_name(place: usize) -> Self {
        Fault {
            number: NAME,
            place: place as u16,
        }
    }

    /// The same fault, its place counted from so many octets before.
    pub fn behind(self, octets: usize) -> Self {
        match self.number {
            NAME => Fault::in_name(self.place() + octets),
            _ => self,
        }
    }

    pub fn place(self) -> usize {
        usize::from(self.place)
    }
}

/// Every fault but 22 is its number alone.
impl From<u8> for Fault {
    fn from(number: u8) -> Self {
        Fault { number, place: 0 }
    }
}
