//! The table of boundary cases: what goes in, what the rules say of it, and
//! which of them.

use super::layout::{area, sheet, Resolver};
use dnr_reference as reference;
use std::fmt::Write;

/// The most room that a case gives.
pub const ROOM: usize = 65_536;

/// What the reference's output buffer holds before the call.
const MARK: u8 = 0xa5;

/// What a case hands to the call.
#[derive(PartialEq, Eq)]
enum Input {
    Area { carrier: u8, octets: Vec<u8> },
    Sheet(Vec<u8>),
}

/// What a call gives back, all zero and no octets for a refusal but its number
/// and the place of 22. A writing has only a number, a place and its output.
#[derive(Default, PartialEq, Eq)]
struct Answer {
    number: usize,
    found: usize,
    discarded: usize,
    fault: usize,
    place: usize,
    output: Vec<u8>,
}

/// One case: the call and the answer stated for it.
struct Case {
    source: String,
    room: usize,
    input: Input,
    stated: Answer,
}

/// A fault of a block or a refusal of a sheet, as the rules have it: its number,
/// and for 22 the place.
#[derive(Clone, Copy)]
pub struct Fault {
    number: usize,
    place: usize,
}

/// Any fault or refusal but 22, which has to state its place.
pub const fn fault(number: usize) -> Fault {
    assert!(number != 22);
    Fault { number, place: 0 }
}

/// 22 with the place of the bad name (RULES N5, W11, T8): in a block from its
/// first octet, in carrier 1 from that of the joined data, in a sheet from its
/// first octet.
pub const fn bad_name(place: usize) -> Fault {
    Fault { number: 22, place }
}

impl From<usize> for Fault {
    fn from(number: usize) -> Self {
        fault(number)
    }
}

/// A reading that is done, as the rules have it.
#[derive(Clone)]
pub struct Done {
    pub found: usize,
    pub discarded: usize,
    /// The first discarded block's fault, 0 if there is none.
    pub fault: Fault,
    pub sheet: Vec<u8>,
}

impl Done {
    /// So many blocks found and none of them discarded.
    pub fn kept(found: usize, sheet: &[u8]) -> Self {
        Done {
            found,
            discarded: 0,
            fault: fault(0),
            sheet: sheet.to_vec(),
        }
    }

    /// The only block found is discarded with a fault, and no record is left.
    pub fn discarded(carrier: u8, fault: impl Into<Fault>) -> Self {
        Done {
            found: 1,
            discarded: 1,
            fault: fault.into(),
            sheet: sheet(carrier, &[]),
        }
    }
}

impl Input {
    /// The case's octets before its area or sheet.
    fn head(&self, room: usize) -> Vec<u8> {
        let four = |number: usize| u32::try_from(number).expect("32 bits").to_be_bytes();
        let sizes = [four(room), four(self.octets().len())].concat();
        match self {
            Input::Area { carrier, .. } => [&[b'r', *carrier][..], &sizes].concat(),
            Input::Sheet(_) => [&[b'w'][..], &sizes].concat(),
        }
    }

    fn octets(&self) -> &[u8] {
        match self {
            Input::Area { octets, .. } | Input::Sheet(octets) => octets,
        }
    }

    /// What the reference answers in so much room. It must leave every octet
    /// of the buffer behind its output as it was.
    fn asked(&self, room: usize) -> Answer {
        let mut output = vec![MARK; room];
        let (mut answer, length) = match self {
            Input::Area { carrier, octets } => {
                let reading = reference::read(*carrier, octets, &mut output);
                let answer = Answer {
                    number: reading.number,
                    found: reading.found,
                    discarded: reading.discarded,
                    fault: reading.fault,
                    place: reading.place,
                    output: Vec::new(),
                };
                (answer, reading.length)
            }
            Input::Sheet(octets) => {
                let written = reference::write(octets, &mut output);
                let answer = Answer {
                    number: written.number,
                    place: written.place,
                    ..Answer::default()
                };
                (answer, written.length)
            }
        };
        assert!(output[length..].iter().all(|octet| *octet == MARK));
        output.truncate(length);
        answer.output = output;
        answer
    }

    /// The line of an answer to this input.
    fn line(&self, answer: &Answer) -> String {
        let Answer {
            number,
            found,
            discarded,
            fault,
            place,
            output,
        } = answer;
        let (length, octets) = (output.len(), digits(output));
        match self {
            Input::Area { .. } => {
                format!("r {number} {length} {found} {discarded} {fault} {place} {octets} kept")
            }
            Input::Sheet(_) => format!("w {number} {length} {place} {octets} kept"),
        }
    }
}

/// All cases, in the order in which they are written.
#[derive(Default)]
pub struct Table {
    cases: Vec<Case>,
}

impl Table {
    /// An area is read in so much room, and the reading is done.
    pub fn read(
        &mut self,
        source: impl Into<String>,
        carrier: u8,
        room: usize,
        octets: &[u8],
        done: &Done,
    ) {
        let stated = Answer {
            number: 0,
            found: done.found,
            discarded: done.discarded,
            fault: done.fault.number,
            place: done.fault.place,
            output: done.sheet.clone(),
        };
        let octets = octets.to_vec();
        self.push(source, room, Input::Area { carrier, octets }, stated);
    }

    /// The reading is refused.
    pub fn read_refused(
        &mut self,
        source: impl Into<String>,
        carrier: u8,
        room: usize,
        octets: &[u8],
        number: usize,
    ) {
        let octets = octets.to_vec();
        let input = Input::Area { carrier, octets };
        self.push(source, room, input, refusal(fault(number)));
    }

    /// The area is read with room exactly for its sheet, one octet less
    /// (refusal 5), and with the most room.
    pub fn read_in_rooms(&mut self, source: &str, carrier: u8, octets: &[u8], done: &Done) {
        let exact = done.sheet.len();
        self.read(source, carrier, exact, octets, done);
        self.read_refused(source, carrier, exact - 1, octets, 5);
        self.read(source, carrier, ROOM, octets, done);
    }

    /// The only block of an area is discarded with a fault.
    pub fn discarded(
        &mut self,
        source: impl Into<String>,
        carrier: u8,
        octets: &[u8],
        fault: impl Into<Fault>,
    ) {
        let done = Done::discarded(carrier, fault);
        self.read(source, carrier, ROOM, octets, &done);
    }

    /// A sheet is written in so much room, and the writing is done.
    pub fn write(&mut self, source: impl Into<String>, room: usize, sheet: &[u8], octets: &[u8]) {
        let stated = Answer {
            output: octets.to_vec(),
            ..Answer::default()
        };
        self.push(source, room, Input::Sheet(sheet.to_vec()), stated);
    }

    /// The writing is refused.
    pub fn write_refused(
        &mut self,
        source: impl Into<String>,
        room: usize,
        sheet: &[u8],
        refused: impl Into<Fault>,
    ) {
        let input = Input::Sheet(sheet.to_vec());
        self.push(source, room, input, refusal(refused.into()));
    }

    /// The sheet is written with room exactly for its octets, one octet less
    /// (refusal 5), and with the most room.
    pub fn write_in_rooms(&mut self, source: &str, sheet: &[u8], octets: &[u8]) {
        let exact = octets.len();
        self.write(source, exact, sheet, octets);
        if exact > 0 {
            self.write_refused(source, exact - 1, sheet, 5);
        }
        self.write(source, ROOM, sheet, octets);
    }

    /// Resolvers that stand in the order of a sheet are read from the octets
    /// defined for them and written to the same, each with no room to spare.
    pub fn goes_round(&mut self, source: impl Into<String>, carrier: u8, resolvers: &[Resolver]) {
        let source = source.into();
        let (octets, sheet) = (area(carrier, resolvers), sheet(carrier, resolvers));
        // In carrier 1 all instances are one block.
        let found = match carrier {
            1 => resolvers.len().min(1),
            _ => resolvers.len(),
        };
        let done = Done::kept(found, &sheet);
        self.read(source.clone(), carrier, sheet.len(), &octets, &done);
        self.write(source, octets.len(), &sheet, &octets);
    }

    /// Adds a case, or where the same call is there already, its source. Two
    /// sources must state the same answer.
    fn push(&mut self, source: impl Into<String>, room: usize, input: Input, stated: Answer) {
        assert!(room <= ROOM);
        let source = source.into();
        let same = |case: &&mut Case| case.room == room && case.input == input;
        match self.cases.iter_mut().find(same) {
            Some(case) => {
                assert!(case.stated == stated, "{source} against {}", case.source);
                case.source += &format!("; {source}");
            }
            None => self.cases.push(Case {
                source,
                room,
                input,
                stated,
            }),
        }
    }

    /// Every case on which the reference and the table do not agree.
    pub fn disagreements(&self) -> Vec<String> {
        let differs = |case: &&Case| case.input.asked(case.room) != case.stated;
        let told = |case: &Case| {
            let stated = case.input.line(&case.stated);
            let asked = case.input.line(&case.input.asked(case.room));
            format!("{}: stated {stated}, reference {asked}", case.source)
        };
        self.cases.iter().filter(differs).map(told).collect()
    }

    /// The cases, one after another.
    pub fn stdin(&self) -> Vec<u8> {
        let octets = |case: &Case| [&case.input.head(case.room)[..], case.input.octets()].concat();
        self.cases.iter().flat_map(octets).collect()
    }

    /// One line a case: the answer stated.
    pub fn stdout(&self) -> String {
        let lines = self.cases.iter().map(|case| case.input.line(&case.stated));
        lines.fold(String::new(), |text, line| text + &line + "\n")
    }

    /// One line a case: its number, from 1, and its source.
    pub fn sources(&self) -> String {
        let mut text = String::new();
        for (index, case) in self.cases.iter().enumerate() {
            writeln!(text, "{} {}", index + 1, case.source).expect("a string takes any text");
        }
        text
    }
}

/// Octets in hexadecimal, two digits each, or `-` for none.
fn digits(octets: &[u8]) -> String {
    if octets.is_empty() {
        return "-".to_string();
    }
    octets.iter().map(|octet| format!("{octet:02x}")).collect()
}

/// A refusal: its number, the place of 22, all else zero, and nothing written.
fn refusal(refused: Fault) -> Answer {
    Answer {
        number: refused.number,
        place: refused.place,
        ..Answer::default()
    }
}
