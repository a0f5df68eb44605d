//! The cases, each once, and their lines.

use dnr_reference::{
    check_text, check_wire, is_dropped, kept, params_fault, text_to_wire, wire_to_text,
};
use std::collections::HashSet;
use std::fmt::Write;

/// What a case is; its letter begins both lines.
#[derive(Clone, Copy, PartialEq, Eq, Hash, Debug)]
pub enum Kind {
    Wire,
    Text,
    Ipv4,
    Ipv6,
    Params,
}

impl Kind {
    fn letter(self) -> char {
        match self {
            Kind::Wire => 'w',
            Kind::Text => 't',
            Kind::Ipv4 => 'a',
            Kind::Ipv6 => 'b',
            Kind::Params => 'p',
        }
    }
}

#[derive(Default)]
pub struct Cases {
    list: Vec<(Kind, Vec<u8>)>,
    seen: HashSet<(Kind, Vec<u8>)>,
    /// What RULES and RFC 9460 say of some of them: octets, answer, source.
    stated: Vec<(Kind, Vec<u8>, String, &'static str)>,
}

impl Cases {
    /// Adds a case that is not there yet.
    pub fn add(&mut self, kind: Kind, octets: impl Into<Vec<u8>>) {
        let case = (kind, octets.into());
        if self.seen.insert(case.clone()) {
            self.list.push(case);
        }
    }

    /// Adds a case with the answer that its source gives.
    pub fn state(
        &mut self,
        source: &'static str,
        kind: Kind,
        octets: impl Into<Vec<u8>>,
        answer: impl Into<String>,
    ) {
        let octets = octets.into();
        self.add(kind, octets.clone());
        self.stated.push((kind, octets, answer.into(), source));
    }

    /// Every stated answer that the reference does not give.
    pub fn disagreements(&self) -> Vec<String> {
        let mut told = Vec::new();
        for (kind, octets, stated, source) in &self.stated {
            let asked = answer(*kind, octets);
            if asked != *stated {
                told.push(format!("{source}: stated {stated}, reference {asked}"));
            }
        }
        told
    }

    pub fn count(&self, kind: Kind) -> usize {
        self.list.iter().filter(|case| case.0 == kind).count()
    }

    /// One line a case: the letter, a space, the octets.
    pub fn stdin(&self) -> String {
        let mut lines = String::new();
        for (kind, octets) in &self.list {
            lines.push(kind.letter());
            lines.push(' ');
            lines.push_str(&hex(octets));
            lines.push('\n');
        }
        lines
    }

    /// One line a case: the letter and what the reference answers.
    pub fn stdout(&self) -> String {
        let mut lines = String::new();
        for (kind, octets) in &self.list {
            lines.push(kind.letter());
            lines.push(' ');
            lines.push_str(&answer(*kind, octets));
            lines.push('\n');
        }
        lines
    }
}

/// What the reference answers.
fn answer(kind: Kind, octets: &[u8]) -> String {
    let answer = match kind {
        Kind::Wire => name_answer(check_wire(octets), || wire_to_text(octets)),
        Kind::Text => name_answer(check_text(octets), || text_to_wire(octets)),
        Kind::Ipv4 => address_answer(4, octets),
        Kind::Ipv6 => address_answer(16, octets),
        Kind::Params => params_fault(octets).to_string(),
    };
    answer.trim_end().to_string()
}

fn name_answer(check: Result<(), usize>, other_form: impl Fn() -> Vec<u8>) -> String {
    match check {
        Ok(()) => format!("ok {}", hex(&other_form())),
        Err(place) => format!("bad {place}"),
    }
}

/// The number kept, whether any is dropped, and those kept.
fn address_answer(width: usize, addresses: &[u8]) -> String {
    let kept = kept(width, addresses);
    let drops = addresses.chunks_exact(width).any(is_dropped);
    format!("{} {} {}", kept.len() / width, u8::from(drops), hex(&kept))
}

/// Two digits for each octet.
pub fn hex(octets: &[u8]) -> String {
    octets.iter().fold(String::new(), |mut text, octet| {
        write!(text, "{octet:02x}").expect("a string takes any text");
        text
    })
}
