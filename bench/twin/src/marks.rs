//! Epochs, headers and votes. They are tuples, so Rust compares them left to right as wanted.

use crate::refusals::{MALFORMED, NO_CARD, USED_UP};

/// A round and a leader.
pub type Epoch = (u32, u8);
/// A round, a leader and a count.
pub type Header = (u32, u8, u32);
/// The epoch voted for, and the header that the voter had accepted.
pub type Vote = (Epoch, Header);

/// Cards are numbered 1 to this, in the largest rack.
pub(crate) const MOST_CARDS: u8 = 7;
/// The largest count of a header; the last 32-bit number is left free so that "one more" fits.
pub(crate) const LAST_COUNT: u32 = u32::MAX - 1;

pub(crate) const NULL_EPOCH: Epoch = (0, 0);
pub(crate) const NULL_HEADER: Header = (0, 0, 0);
pub(crate) const NULL_VOTE: Vote = (NULL_EPOCH, NULL_HEADER);

pub(crate) fn is_card(number: u8) -> bool {
    (1..=MOST_CARDS).contains(&number)
}

pub(crate) fn is_epoch(epoch: Epoch) -> bool {
    is_card(epoch.1) || epoch == NULL_EPOCH
}

pub(crate) fn is_header(header: Header) -> bool {
    let fits = is_card(header.1) && header.2 <= LAST_COUNT;
    fits || header == NULL_HEADER
}

#[inline]
pub(crate) fn epoch_of(header: Header) -> Epoch {
    (header.0, header.1)
}

/// The header at which an epoch begins, below everything submitted in it.
#[inline]
pub(crate) fn start_of(epoch: Epoch) -> Header {
    (epoch.0, epoch.1, 0)
}

/// The least epoch that `card` leads and that is above `above`.
pub fn least_epoch(card: u8, above: Epoch) -> Result<Epoch, u8> {
    if !is_epoch(above) {
        return Err(MALFORMED);
    }
    if !is_card(card) {
        return Err(NO_CARD);
    }
    if card > above.1 {
        return Ok((above.0, card));
    }
    let round = above.0.checked_add(1).ok_or(USED_UP)?;
    Ok((round, card))
}
