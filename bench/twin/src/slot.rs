//! A frame's 48 bytes: a bit map, and behind it the fields that are not 0.

use crate::frame::Frame;
use crate::refusals::{MALFORMED, WRONG_SIZE};

pub(crate) const SLOT: usize = 48;
pub(crate) type Slot = [u8; SLOT];

/// Lays a field down and says whether it stands, which moves the place of the next one. A field
/// of 0 is laid down too, where the next one overwrites it or the slot's rest is 0 anyway: that
/// needs no branch. All fields together take 42 bytes, so none passes the slot's end.
#[inline(always)]
fn put<const N: usize>(slot: &mut Slot, at: &mut usize, bytes: [u8; N]) -> u8 {
    slot[*at..*at + N].copy_from_slice(&bytes);
    let stands = bytes != [0; N];
    *at += if stands { N } else { 0 };
    u8::from(stands)
}

/// Picks a field up by its bit of the map; one that does not stand is 0.
#[inline(always)]
fn get<const N: usize>(slot: &Slot, at: &mut usize, bit: u8) -> [u8; N] {
    let mut bytes = [0; N];
    bytes.copy_from_slice(&slot[*at..*at + N]);
    let stands = slot[0] >> bit & 1 == 1;
    *at += if stands { N } else { 0 };
    if stands {
        bytes
    } else {
        [0; N]
    }
}

/// Writes in place, each field by its own width, so that what is read back soon after is read
/// as it was written.
#[inline]
pub(crate) fn encode(frame: &Frame, slot: &mut Slot) {
    *slot = [0; SLOT];
    let at = &mut 1;
    let (round, leader, count) = frame.header();
    let mut map = put(slot, at, [frame.kind()]);
    map |= put(slot, at, round.to_le_bytes()) << 1;
    map |= put(slot, at, [leader]) << 2;
    map |= put(slot, at, count.to_le_bytes()) << 3;
    for (bit, word) in (4..).zip(frame.words()) {
        map |= put(slot, at, word.to_le_bytes()) << bit;
    }
    slot[0] = map;
}

/// The fields that any 48 bytes seem to hold; whether they are a frame's is not looked at.
#[inline(always)]
pub(crate) fn decode(slot: &Slot) -> Frame {
    let at = &mut 1;
    let [kind] = get(slot, at, 0);
    let round = u32::from_le_bytes(get(slot, at, 1));
    let [leader] = get(slot, at, 2);
    let count = u32::from_le_bytes(get(slot, at, 3));
    let mut words = [0; 4];
    for (bit, word) in (4..).zip(&mut words) {
        *word = u64::from_le_bytes(get(slot, at, bit));
    }
    Frame::raw(kind, (round, leader, count), words)
}

/// Writes the frame's slot at the bytes from `start` on.
pub fn write_slot(bytes: &mut [u8], start: usize, frame: Frame) -> Result<(), u8> {
    let slot =
        bytes.get_mut(start..).and_then(|rest| rest.first_chunk_mut::<SLOT>()).ok_or(WRONG_SIZE)?;
    encode(&frame, slot);
    Ok(())
}

/// Reads the frame whose slot stands at the bytes from `start` on.
pub fn read_slot(bytes: &[u8], start: usize) -> Result<Frame, u8> {
    let slot = bytes.get(start..).and_then(|rest| rest.first_chunk::<SLOT>()).ok_or(WRONG_SIZE)?;
    let frame = decode(slot).checked()?;
    // Each frame has one slot, so bytes that differ from it are none's: a bit that stands for a
    // field of 0, or a byte behind the fields.
    let mut own = [0; SLOT];
    encode(&frame, &mut own);
    if own == *slot {
        Ok(frame)
    } else {
        Err(MALFORMED)
    }
}
