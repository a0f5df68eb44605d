//! The numbers given back (RULES R0 to R44), each under a name and with its words.

use crate::words;
use std::error::Error;
use std::fmt;

/// Why a call refused. It then changed no octet of any buffer.
///
/// Reading answers 1 to 5; writing answers 2, 4, 5, 40 to 44 and, for the fields of a record, the numbers 21 to 28 of a [`Fault`]. Refusals
/// are equal if their numbers and their places are; [`Refusal::fault`] leaves the place out.
#[derive(Clone, Copy, Debug, PartialEq, Eq, Hash)]
pub struct Refusal {
    number: u8,
    place: Option<usize>,
}

/// Why a reading discarded a block: 20 to 29. The reading goes on without it.
#[derive(Clone, Copy, Debug, PartialEq, Eq, Hash)]
pub struct Fault(u8);

impl Refusal {
    /// 1: reading, the carrier number is not 1 to 5. A [`Carrier`](crate::Carrier) never gets it.
    pub const CARRIER: Refusal = Refusal::without_place(1);
    /// 2: the input is longer than 40,960 octets.
    pub const INPUT: Refusal = Refusal::without_place(2);
    /// 3: the area cannot be framed.
    pub const FRAMING: Refusal = Refusal::without_place(3);
    /// 4: more than 16 records.
    pub const RECORDS: Refusal = Refusal::without_place(4);
    /// 5: the output is shorter than the result.
    pub const ROOM: Refusal = Refusal::without_place(5);
    /// 40: the sheet is shorter than 7 octets, or does not begin with RSV.
    pub const SHEET: Refusal = Refusal::without_place(40);
    /// 41: the sheet's version is not 1.
    pub const VERSION: Refusal = Refusal::without_place(41);
    /// 42: the sheet's carrier is not 1 to 5.
    pub const SHEET_CARRIER: Refusal = Refusal::without_place(42);
    /// 43: the sheet's lengths do not add up, or a mode, the order or a lifetime is wrong.
    pub const TILING: Refusal = Refusal::without_place(43);
    /// 44: a carrier 3 record is above 2,040 octets when rounded.
    pub const LARGE: Refusal = Refusal::without_place(44);

    const fn without_place(number: u8) -> Self {
        Refusal { number, place: None }
    }

    /// The refusal of this number; the library gives none above 44. Only 22 has a place.
    pub(crate) fn of(number: usize, place: usize) -> Self {
        let number = number as u8;
        let place = (number == Fault::NAME.0).then_some(place);
        Refusal { number, place }
    }

    /// The number.
    pub fn number(self) -> u8 {
        self.number
    }

    /// When the number is given, in the library's words.
    pub fn words(self) -> String {
        words(usize::from(self.number))
    }

    /// The fault of a record for which a writing refused, 21 to 28.
    pub fn fault(self) -> Option<Fault> {
        Fault::of(usize::from(self.number))
    }

    /// Where a name is wrong; there exactly if a writing refused with 22.
    ///
    /// It is the first octet at which no host name can continue; where the name is only cut short it is the index after its last octet,
    /// which may be the length of the sheet: compare before looking at the octet there. It counts from 0 at the sheet's first octet: the
    /// name of a record that starts at s begins at s + 8. A sheet holds names in wire form, for IKEv2 too.
    ///
    /// ```
    /// // A sheet of one record, whose name "a-" stands at octet 15, behind the length of its label: the hyphen may not be last.
    /// let sheet = b"RSV\x00\x01\x01\x01\x00\x01\x00\x00\x00\x00\x00\x04\x02a-\x00";
    /// let refusal = dnr::write_to_vec(sheet).unwrap_err();
    /// assert_eq!((refusal.number(), refusal.place()), (22, Some(17)));
    /// assert_eq!(sheet[17], b'-');
    /// ```
    pub fn place(self) -> Option<usize> {
        self.place
    }
}

impl Fault {
    /// 20: a length says more octets than are left, or a field is missing.
    pub const FIELD: Fault = Fault(20);
    /// 21: priority 0, which is AliasMode.
    pub const PRIORITY: Fault = Fault(21);
    /// 22: the name is no host name.
    pub const NAME: Fault = Fault(22);
    /// 23: no addresses or no whole number of them, or name only in carriers 4 and 5.
    pub const ADDRESSES: Fault = Fault(23);
    /// 24: more than 63 addresses as carried, or over 1,024 octets of parameters.
    pub const LIMIT: Fault = Fault(24);
    /// 25: reading, no address is left after dropping; writing, an address to be dropped is present.
    pub const DROPPED: Fault = Fault(25);
    /// 26: the parameters are cut short, their keys do not rise, or one is 65535.
    pub const PARAMETERS: Fault = Fault(26);
    /// 27: an address hint among the parameters, key 4 or 6 (ipv4hint, ipv6hint).
    pub const HINT: Fault = Fault(27);
    /// 28: parameter 0, 1, 2 or 3 (mandatory, alpn, no-default-alpn, port) is not as its key asks; no-default-alpn asks for alpn beside it.
    pub const VALUE: Fault = Fault(28);
    /// 29: router advertisement, padding that is not 0 to 7 zeros.
    pub const PADDING: Fault = Fault(29);

    /// The fault of this number, if it is one of 20 to 29.
    pub(crate) fn of(number: usize) -> Option<Self> {
        (20..=29).contains(&number).then_some(Fault(number as u8))
    }

    /// The number.
    pub fn number(self) -> u8 {
        self.0
    }

    /// When the number is given, in the library's words.
    pub fn words(self) -> String {
        words(usize::from(self.0))
    }
}

impl From<Fault> for Refusal {
    /// Writing's answer for a record with this fault, without a place. For 22 it equals no refusal that a writing gave, which has a place:
    /// compare [`Refusal::fault`] or [`Refusal::number`].
    fn from(fault: Fault) -> Self {
        Refusal::without_place(fault.0)
    }
}

impl fmt::Display for Refusal {
    fn fmt(&self, f: &mut fmt::Formatter) -> fmt::Result {
        write!(f, "refusal {}", self.number)?;
        if let Some(place) = self.place {
            write!(f, " at octet {place}")?;
        }
        write!(f, ": {}", self.words())
    }
}

impl fmt::Display for Fault {
    fn fmt(&self, f: &mut fmt::Formatter) -> fmt::Result {
        write!(f, "fault {}: {}", self.0, self.words())
    }
}

impl Error for Refusal {}

impl Error for Fault {}

#[cfg(test)]
mod tests {
    use super::*;

    #[test]
    fn displayed_with_its_words() {
        assert_eq!(Refusal::ROOM.to_string(), "refusal 5: output shorter than the result");
        assert_eq!(Fault::PRIORITY.to_string(), "fault 21: priority 0 (AliasMode)");
        assert_eq!(Refusal::from(Fault::LIMIT).to_string(), "refusal 24: more than 63 addresses, or over 1,024 octets of parameters");
        assert_eq!(Refusal::from(Fault::NAME).fault(), Some(Fault::NAME));
        assert_eq!(Refusal::ROOM.fault(), None);
    }

    #[test]
    fn only_22_has_a_place() {
        let wrong = Refusal::of(22, 31);
        assert_eq!((wrong.number(), wrong.place(), wrong.fault()), (22, Some(31), Some(Fault::NAME)));
        assert!(wrong.to_string().starts_with("refusal 22 at octet 31: the name is no host name"));
        assert_eq!(Refusal::of(22, 0).place(), Some(0));
        assert_ne!(wrong, Fault::NAME.into());
        assert_eq!(Refusal::from(Fault::NAME).place(), None);
        for number in (1..=5).chain(20..=29).chain(40..=44).filter(|number| *number != 22) {
            assert_eq!(Refusal::of(number, 31).place(), None);
        }
        assert_eq!(Refusal::of(5, 0), Refusal::ROOM);
    }

    #[test]
    fn faults_are_20_to_29() {
        for number in 20..=29 {
            assert_eq!(Fault::of(number).map(Fault::number), Some(number as u8));
        }
        assert_eq!((Fault::of(0), Fault::of(19), Fault::of(30)), (None, None, None));
    }

    /// include/dnr.h lists the numbers in their order of test, `NAME = number, /* words */`; the words may go on in the next line.
    #[test]
    fn the_header_has_the_words() {
        let header = include_str!("../../../include/dnr.h");
        let listed = |line: &str| line.starts_with("DNR_REFUSAL_") || line.starts_with("DNR_FAULT_");
        let entries: Vec<(usize, String)> = header
            .match_indices("    DNR_")
            .map(|(at, _)| header[at..].trim_start())
            .filter(|entry| listed(entry))
            .map(|entry| {
                let (name, comment) = entry.split_once("/* ").unwrap();
                let number = name.split_once(" = ").unwrap().1.trim().trim_end_matches(',');
                let words: Vec<&str> = comment.split_once(" */").unwrap().0.split_whitespace().collect();
                (number.parse().unwrap(), words.join(" "))
            })
            .collect();
        let numbers = [1, 2, 3, 4, 5, 20, 29, 21, 22, 23, 24, 25, 26, 27, 28, 40, 41, 42, 43, 44];
        assert_eq!(entries, numbers.map(|number| (number, words(number))));
    }
}
