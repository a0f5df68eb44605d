//! The faults 21 to 28 of a record in their order (RULES T2, T4).

use crate::addresses::count_kept;
use crate::carrier::Carrier;
use crate::fault::Fault;
use crate::numbers::{ALIAS, NO_ADDRESS, OVER_LIMIT, UNUSABLE};
use crate::params::params_fault;
use crate::record::Record;
use crate::{MAX_ADDRESSES, MAX_PARAMS};

#[derive(Clone, Copy, PartialEq, Eq)]
pub enum Call {
    Reading,
    Writing,
}

/// How many addresses the record keeps, or its first fault of 21 to 28; the
/// place of 22 counts from the name's first octet. Inlined in both calls, or
/// writing would be slower by a fifth for a small record.
#[inline(always)]
pub fn judge(call: Call, carrier: Carrier, record: &Record) -> Result<usize, Fault> {
    // AliasMode (RFC 9460 §2.4.2) is not supported, RFC 9464 §3.1.
    if record.priority == 0 {
        return Err(ALIAS.into());
    }
    record.name.check().map_err(Fault::in_name)?;
    // Name only skips 24 to 28, and in carriers 1 to 3 also 23.
    let Some(full) = record.full else {
        return if carrier.has_name_only() {
            Ok(0)
        } else {
            Err(NO_ADDRESS.into())
        };
    };
    let width = carrier.width();
    if full.addresses.is_empty() || !full.addresses.len().is_multiple_of(width) {
        return Err(NO_ADDRESS.into());
    }
    // As carried, before any is dropped (RULES L3).
    let carried = full.addresses.len() / width;
    if carried > MAX_ADDRESSES || full.params.len() > MAX_PARAMS {
        return Err(OVER_LIMIT.into());
    }
    // Unusable addresses are dropped by the reader, and only there; the
    // writer refuses them.
    let kept = count_kept(width, full.addresses);
    let unusable = match call {
        Call::Reading => kept == 0,
        Call::Writing => kept < carried,
    };
    if unusable {
        return Err(UNUSABLE.into());
    }
    match params_fault(full.params) {
        0 => Ok(kept),
        fault => Err(fault.into()),
    }
}
