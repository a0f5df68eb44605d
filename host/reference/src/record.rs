//! A resolver's record, in parts of the area or sheet it stands in.

use crate::names::Name;

#[derive(Clone, Copy)]
pub struct Record<'a> {
    pub priority: u16,
    /// Zero except for carrier 3.
    pub lifetime: u32,
    pub name: Name<'a>,
    /// None for name only, the sheet's mode 0.
    pub full: Option<Full<'a>>,
}

/// What stands beside the name in the full form, the sheet's mode 1.
#[derive(Clone, Copy)]
pub struct Full<'a> {
    /// As carried, those to be dropped included.
    pub addresses: &'a [u8],
    pub params: &'a [u8],
}
