//! Addresses (RULES A1, A2).

use std::net::{Ipv4Addr, Ipv6Addr};

/// Whether an address of 4 or 16 octets is dropped when read: multicast
/// (224.0.0.0/4, ff00::/8) and host loopback (127.0.0.0/8, ::1), RFC 9463
/// §4.2, §5.2, §6.2. Nothing else is, mapped IPv4 addresses included.
pub fn is_dropped(address: &[u8]) -> bool {
    if let Ok(octets) = <[u8; 4]>::try_from(address) {
        let address = Ipv4Addr::from(octets);
        address.is_multicast() || address.is_loopback()
    } else if let Ok(octets) = <[u8; 16]>::try_from(address) {
        let address = Ipv6Addr::from(octets);
        address.is_multicast() || address.is_loopback()
    } else {
        false
    }
}

/// Those addresses of a list, of `width` octets each, that are not dropped,
/// in their order. The width is 4 or 16.
pub fn kept(width: usize, addresses: &[u8]) -> Vec<u8> {
    each_kept(width, addresses).flatten().copied().collect()
}

/// The addresses not dropped, one by one.
pub fn each_kept(width: usize, addresses: &[u8]) -> impl Iterator<Item = &[u8]> {
    addresses
        .chunks_exact(width)
        .filter(|address| !is_dropped(address))
}

/// How many addresses of the list are kept.
pub fn count_kept(width: usize, addresses: &[u8]) -> usize {
    each_kept(width, addresses).count()
}
