//! The five carriers.

use std::error::Error;
use std::fmt;
use std::str::FromStr;

/// What carries the resolvers: a DHCP message, a router advertisement or an IKEv2 configuration payload.
///
/// A carrier is parsed from its name or its number and printed as its name:
///
/// ```
/// use dnr::Carrier;
///
/// assert_eq!("ra".parse(), Ok(Carrier::Ra));
/// assert_eq!("3".parse(), Ok(Carrier::Ra));
/// assert_eq!(Carrier::Ra.to_string(), "ra");
/// assert!("dhcp5".parse::<Carrier>().is_err());
/// ```
#[derive(Clone, Copy, Debug, PartialEq, Eq, Hash)]
#[repr(u8)]
pub enum Carrier {
    /// DHCPv4 option 162 (`dhcp4`).
    Dhcp4 = 1,
    /// DHCPv6 option 144 (`dhcp6`).
    Dhcp6 = 2,
    /// Router advertisement option 144 (`ra`).
    Ra = 3,
    /// IKEv2 attribute 27, ENCDNS_IP4 (`ike4`).
    Ike4 = 4,
    /// IKEv2 attribute 28, ENCDNS_IP6 (`ike6`).
    Ike6 = 5,
}

impl Carrier {
    /// Every carrier, by rising number.
    pub const ALL: [Carrier; 5] = [Carrier::Dhcp4, Carrier::Dhcp6, Carrier::Ra, Carrier::Ike4, Carrier::Ike6];

    /// The carrier's number, 1 to 5, as a sheet and the C interface have it.
    pub fn number(self) -> u8 {
        self as u8
    }

    /// The carrier's short name.
    pub fn name(self) -> &'static str {
        match self {
            Carrier::Dhcp4 => "dhcp4",
            Carrier::Dhcp6 => "dhcp6",
            Carrier::Ra => "ra",
            Carrier::Ike4 => "ike4",
            Carrier::Ike6 => "ike6",
        }
    }

    /// Octets of an address in this carrier.
    pub(crate) fn width(self) -> usize {
        match self {
            Carrier::Dhcp4 | Carrier::Ike4 => 4,
            Carrier::Dhcp6 | Carrier::Ra | Carrier::Ike6 => 16,
        }
    }
}

impl fmt::Display for Carrier {
    fn fmt(&self, f: &mut fmt::Formatter) -> fmt::Result {
        f.pad(self.name())
    }
}

/// A name or number that is none of a carrier.
#[derive(Clone, Copy, Debug, PartialEq, Eq)]
pub struct UnknownCarrier;

impl fmt::Display for UnknownCarrier {
    fn fmt(&self, f: &mut fmt::Formatter) -> fmt::Result {
        f.write_str("a carrier is dhcp4, dhcp6, ra, ike4 or ike6, or its number from 1 to 5")
    }
}

impl Error for UnknownCarrier {}

impl TryFrom<u8> for Carrier {
    type Error = UnknownCarrier;

    fn try_from(number: u8) -> Result<Self, UnknownCarrier> {
        Carrier::ALL.into_iter().find(|carrier| carrier.number() == number).ok_or(UnknownCarrier)
    }
}

impl FromStr for Carrier {
    type Err = UnknownCarrier;

    fn from_str(text: &str) -> Result<Self, UnknownCarrier> {
        let is_meant = |carrier: &Carrier| carrier.name() == text || carrier.number().to_string() == text;
        Carrier::ALL.into_iter().find(is_meant).ok_or(UnknownCarrier)
    }
}

#[cfg(test)]
mod tests {
    use super::*;

    #[test]
    fn names_and_numbers_go_round() {
        for (carrier, number) in Carrier::ALL.into_iter().zip(1u8..) {
            assert_eq!(carrier.number(), number);
            assert_eq!(Carrier::try_from(number), Ok(carrier));
            assert_eq!(carrier.to_string().parse(), Ok(carrier));
            assert_eq!(number.to_string().parse(), Ok(carrier));
        }
        assert_eq!(format!("[{:>6}]", Carrier::Ra), "[    ra]");
    }

    #[test]
    fn nothing_else_is_a_carrier() {
        for text in ["", "0", "6", "01", "+1", " 1", "dhcp", "DHCP4", "ra ", "ike"] {
            assert_eq!(text.parse::<Carrier>(), Err(UnknownCarrier), "{text:?}");
        }
        for number in (0..=u8::MAX).filter(|number| !(1..=5).contains(number)) {
            assert_eq!(Carrier::try_from(number), Err(UnknownCarrier));
        }
    }
}
