//! A card's log: the used front of its own part of the lent entries. Its order is never relied
//! upon, as the caller may have put other entries there.

use crate::frame::Entry;
use crate::marks::Header;

/// Looks from the newest end, where the entries of the backlog stand.
#[inline]
pub(crate) fn find(log: &[Entry], header: Header) -> Option<&Entry> {
    log.iter().rev().find(|entry| entry.header == header)
}

/// The entries above one header and below another one.
pub(crate) fn within(log: &[Entry], above: Header, below: Header) -> impl Iterator<Item = &Entry> {
    log.iter().filter(move |entry| above < entry.header && entry.header < below)
}

/// The entries at or below a header.
pub(crate) fn up_to(log: &[Entry], last: Header) -> impl Iterator<Item = &Entry> {
    log.iter().filter(move |entry| entry.header <= last)
}

/// Moves the entries at or below a header to the front, in their order, and says how many.
pub(crate) fn cut_above(log: &mut [Entry], last: Header) -> usize {
    let mut kept = 0;
    for at in 0..log.len() {
        if log[at].header <= last {
            log[kept] = log[at];
            kept += 1;
        }
    }
    kept
}
