//! Service parameters (RULES P1 to P8; RFC 9460 §2.2).

use crate::numbers::{PARAMS_HINT, PARAMS_SHAPE, PARAMS_VALUE};
use crate::octets::{take, take_u16, take_u8};

const MANDATORY: u16 = 0;
const ALPN: u16 = 1;
const NO_DEFAULT_ALPN: u16 = 2;
const PORT: u16 = 3;
const IPV4HINT: u16 = 4;
const IPV6HINT: u16 = 6;
/// RFC 9460 §14.3.2: reserved ("Invalid key").
const INVALID: u16 = 65_535;

/// One parameter: 16-bit key, 16-bit length, value. None where it runs past
/// the field's end.
fn take_param<'a>(rest: &mut &'a [u8]) -> Option<(u16, &'a [u8])> {
    let key = take_u16(rest)?;
    let length = take_u16(rest)?;
    Some((key, take(rest, usize::from(length))?))
}

/// The fault of a parameter field, 0 if there is none. The whole field is
/// looked at for 26, then for 27, then for 28 (RULES T3). The field may be
/// empty.
pub fn params_fault(params: &[u8]) -> u8 {
    let mut rest = params;
    let mut before = None;
    let mut hints = false;
    let mut values_good = true;
    while !rest.is_empty() {
        // RFC 9460 §2.2: the parameters tile the field and their keys
        // rise strictly.
        let Some((key, value)) = take_param(&mut rest) else {
            return PARAMS_SHAPE;
        };
        if key == INVALID || before.is_some_and(|before| key <= before) {
            return PARAMS_SHAPE;
        }
        // RFC 9463 §3.1.8: the addresses stand in the option instead.
        hints |= key == IPV4HINT || key == IPV6HINT;
        values_good = values_good && value_is_good(before, key, value);
        before = Some(key);
    }
    if hints {
        return PARAMS_HINT;
    }
    if !values_good || !mandatory_are_present(params) {
        return PARAMS_VALUE;
    }
    0
}

/// What a value must be, behind a parameter with the key `before` if there is
/// one. Keys 5 and 7 to 65534 are carried as they are.
fn value_is_good(before: Option<u16>, key: u16, value: &[u8]) -> bool {
    match key {
        // RFC 9460 §8: a list of keys, not empty.
        MANDATORY => !value.is_empty() && value.len().is_multiple_of(2),
        ALPN => is_alpn(value),
        // RULES P6, RFC 9460 §7.1.1: empty, and alpn is there too. Keys rise,
        // so that alpn can only stand right before it.
        NO_DEFAULT_ALPN => value.is_empty() && before == Some(ALPN),
        // RFC 9460 §7.2: 2 octets, any port.
        PORT => value.len() == 2,
        _ => true,
    }
}

/// RFC 9460 §7.1.1: one or more strings, each behind an 8-bit length of
/// at least 1, tiling the value.
fn is_alpn(value: &[u8]) -> bool {
    let mut rest = value;
    while !rest.is_empty() {
        match take_u8(&mut rest) {
            Some(length) if length > 0 && take(&mut rest, usize::from(length)).is_some() => {}
            _ => return false,
        }
    }
    !value.is_empty()
}

/// RFC 9460 §8: the mandatory keys rise strictly, 0 is not among them,
/// and each is a key of the same parameters. `params` tiles, its keys rise,
/// and a mandatory list has an even length.
fn mandatory_are_present(params: &[u8]) -> bool {
    let mut rest = params;
    let Some((MANDATORY, mut list)) = take_param(&mut rest) else {
        return true;
    };
    // Both run upwards, so the search for a key goes on where the one for the
    // key before it ended.
    let mut before = 0;
    while let Some(key) = take_u16(&mut list) {
        if key <= before {
            return false;
        }
        before = key;
        loop {
            match take_param(&mut rest) {
                Some((found, _)) if found == key => break,
                Some(_) => {}
                None => return false,
            }
        }
    }
    true
}
