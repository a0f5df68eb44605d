//! The five carriers (RULES C1).

#[derive(Clone, Copy, Debug, PartialEq, Eq)]
pub enum Carrier {
    Dhcp4 = 1,
    Dhcp6 = 2,
    Router = 3,
    Ike4 = 4,
    Ike6 = 5,
}

impl Carrier {
    pub fn from_number(number: u8) -> Option<Self> {
        match number {
            1 => Some(Carrier::Dhcp4),
            2 => Some(Carrier::Dhcp6),
            3 => Some(Carrier::Router),
            4 => Some(Carrier::Ike4),
            5 => Some(Carrier::Ike6),
            _ => None,
        }
    }

    pub fn number(self) -> u8 {
        self as u8
    }

    /// The code or type of its options or attributes: RFC 9463 §9.1
    /// to §9.3, RFC 9464 §8.
    pub fn code(self) -> u16 {
        match self {
            Carrier::Dhcp4 => 162,
            Carrier::Dhcp6 | Carrier::Router => 144,
            Carrier::Ike4 => 27,
            Carrier::Ike6 => 28,
        }
    }

    /// Octets of an address.
    pub fn width(self) -> usize {
        match self {
            Carrier::Dhcp4 | Carrier::Ike4 => 4,
            Carrier::Dhcp6 | Carrier::Router | Carrier::Ike6 => 16,
        }
    }

    /// House rule: carriers 4 and 5 have no name-only mode (RULES B5).
    pub fn has_name_only(self) -> bool {
        !matches!(self, Carrier::Ike4 | Carrier::Ike6)
    }

    /// A lifetime is zero except for carrier 3 (RULES S4).
    pub fn has_lifetime(self) -> bool {
        self == Carrier::Router
    }
}

/// A length in units of 8 octets, as carrier 3 counts it (RFC 4861 §4.6;
/// RULES B3), kept apart from lengths in octets.
#[derive(Clone, Copy, Debug, PartialEq, Eq)]
pub struct Eights(pub usize);

impl Eights {
    pub fn in_octets(self) -> usize {
        self.0 * 8
    }

    /// The least whole number of units that holds `octets`.
    pub fn rounding_up(octets: usize) -> Self {
        Eights(octets.div_ceil(8))
    }
}
