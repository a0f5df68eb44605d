//! The search over states that `places` compares with: names grow octet by
//! octet, and a state is viable if a whole name can be reached from it.

use std::collections::HashMap;
use std::hash::Hash;

/// The names as octet by octet steps; `None` where a step is not allowed.
pub trait Grammar {
    type State: Copy + Eq + Hash;
    const START: Self::State;
    /// Octets enough to find a way to a whole name wherever there is one.
    const SEARCHED: &'static [u8];
    fn step(state: Self::State, octet: u8) -> Option<Self::State>;
    fn is_whole(state: Self::State) -> bool;
}

#[derive(Clone, Copy, PartialEq, Eq, Hash)]
pub enum InWire {
    /// A length octet comes.
    Length {
        labels: bool,
    },
    /// So many octets of the label come.
    Label {
        left: u8,
        first: bool,
    },
    Root,
}

pub struct Wire;

impl Grammar for Wire {
    /// Octets so far, and what comes.
    type State = (usize, InWire);
    const START: Self::State = (0, InWire::Length { labels: false });
    const SEARCHED: &'static [u8] = &[0, 1, 2, 3, 63, b'a', b'-'];

    fn step((octets, place): Self::State, octet: u8) -> Option<Self::State> {
        let place = match (place, octet) {
            (InWire::Length { labels: true }, 0) => InWire::Root,
            (InWire::Length { .. }, 1..=63) => InWire::Label {
                left: octet,
                first: true,
            },
            (InWire::Label { left, first }, b'-') if left > 1 && !first => InWire::Label {
                left: left - 1,
                first: false,
            },
            (InWire::Label { left, .. }, _) if octet.is_ascii_alphanumeric() => match left {
                1 => InWire::Length { labels: true },
                _ => InWire::Label {
                    left: left - 1,
                    first: false,
                },
            },
            _ => return None,
        };
        (octets < 255).then_some((octets + 1, place))
    }

    fn is_whole((octets, place): Self::State) -> bool {
        place == InWire::Root && (3..=255).contains(&octets)
    }
}

pub struct Text;

impl Grammar for Text {
    /// Octets so far, octets of the label so far, the octet before.
    type State = (usize, usize, u8);
    const START: Self::State = (0, 0, b'.');
    const SEARCHED: &'static [u8] = b"a-.";

    fn step((octets, label, before): Self::State, octet: u8) -> Option<Self::State> {
        let label = match octet {
            b'.' if before == b'a' => 0,
            b'-' if before != b'.' => label + 1,
            _ if octet.is_ascii_alphanumeric() => label + 1,
            _ => return None,
        };
        let kind = if octet.is_ascii_alphanumeric() {
            b'a'
        } else {
            octet
        };
        (octets < 253 && label <= 63).then_some((octets + 1, label, kind))
    }

    fn is_whole((_, _, before): Self::State) -> bool {
        before == b'a'
    }
}

pub struct Search<G: Grammar> {
    known: HashMap<G::State, bool>,
}

impl<G: Grammar> Search<G> {
    pub fn new() -> Self {
        Search {
            known: HashMap::new(),
        }
    }

    /// Whether a whole name can be reached.
    fn is_viable(&mut self, state: G::State) -> bool {
        if let Some(known) = self.known.get(&state) {
            return *known;
        }
        let viable = G::is_whole(state)
            || G::SEARCHED
                .iter()
                .filter_map(|octet| G::step(state, *octet))
                .any(|next| self.is_viable(next));
        self.known.insert(state, viable);
        viable
    }

    pub fn check(&mut self, name: &[u8]) -> Result<(), usize> {
        let mut state = G::START;
        for (place, octet) in name.iter().enumerate() {
            state = match G::step(state, *octet) {
                Some(next) if self.is_viable(next) => next,
                _ => return Err(place),
            };
        }
        if G::is_whole(state) {
            Ok(())
        } else {
            Err(name.len())
        }
    }
}
