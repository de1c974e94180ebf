//! Both backplanes: a ring of slots for each lane, over whole frames or over lent bytes.
//!
//! Their calls are always inlined: a frame is large as an answer, and seldom needed as a whole.

use crate::backplane::{Backplane, Lane};
use crate::frame::Frame;
use crate::refusals::{LANE_FULL, NOTHING_DUE, NO_CARD, WRONG_SIZE};
use crate::slot::{decode, encode, Slot, SLOT};

const BOX_CARDS: u8 = 3;
const BOX_ROOM: u16 = 8;
const BOX_SLOTS: usize = 288;
const MOST_ROOM: usize = 2048;
/// Four lanes from each of seven cards to each; those of a card to itself are never used.
const MOST_RINGS: usize = 7 * 7 * 4;

/// Where the first frame of a ring waits, and how many wait.
#[derive(Clone, Copy)]
struct Ring {
    head: u16,
    count: u16,
}

/// Knows slots by number and nothing of what they hold.
struct RingTable {
    cards: u8,
    room: u16,
    rings: [Ring; MOST_RINGS],
}

impl RingTable {
    fn new(cards: u8, room: u16) -> RingTable {
        RingTable { cards, room, rings: [Ring { head: 0, count: 0 }; MOST_RINGS] }
    }

    #[inline(always)]
    fn ring_of(&self, lane: Lane) -> Result<usize, u8> {
        let row = match lane.number {
            0 => 0,
            4 => 1,
            5 => 2,
            6 => 3,
            _ => return Err(NO_CARD),
        };
        let n = usize::from(self.cards);
        // Card 0 wraps to a number that no card has.
        let from = usize::from(lane.from.wrapping_sub(1));
        let to = usize::from(lane.to.wrapping_sub(1));
        if from >= n || to >= n || from == to {
            return Err(NO_CARD);
        }
        Ok((from * n + to) * 4 + row)
    }

    /// The slot `position` places behind the head, going round at most once.
    #[inline(always)]
    fn slot(&self, ring: usize, position: u16) -> usize {
        let place = self.rings[ring].head + position;
        let place = if place >= self.room { place - self.room } else { place };
        ring * usize::from(self.room) + usize::from(place)
    }

    #[inline(always)]
    fn waiting(&self, lane: Lane) -> Result<usize, u8> {
        Ok(usize::from(self.rings[self.ring_of(lane)?].count))
    }

    #[inline(always)]
    fn slot_at(&self, lane: Lane, position: usize) -> Result<usize, u8> {
        let ring = self.ring_of(lane)?;
        if position >= usize::from(self.rings[ring].count) {
            return Err(NOTHING_DUE);
        }
        Ok(self.slot(ring, position as u16))
    }

    /// Hands out the slot behind the last waiting frame.
    #[inline(always)]
    fn enter(&mut self, lane: Lane) -> Result<usize, u8> {
        let ring = self.ring_of(lane)?;
        let count = self.rings[ring].count;
        if count >= self.room {
            return Err(LANE_FULL);
        }
        self.rings[ring].count = count + 1;
        Ok(self.slot(ring, count))
    }

    #[inline(always)]
    fn drop_first(&mut self, lane: Lane, k: usize) -> Result<(), u8> {
        let ring = self.ring_of(lane)?;
        let Ring { head, count } = self.rings[ring];
        if k > usize::from(count) {
            return Err(NOTHING_DUE);
        }
        let k = k as u16;
        let head = head + k;
        let head = if head >= self.room { head - self.room } else { head };
        self.rings[ring] = Ring { head, count: count - k };
        Ok(())
    }
}

/// Three cards with room for eight frames in each lane, in its own memory.
pub struct FrameBox {
    table: RingTable,
    frames: [Frame; BOX_SLOTS],
}

impl FrameBox {
    pub fn new() -> FrameBox {
        FrameBox { table: RingTable::new(BOX_CARDS, BOX_ROOM), frames: [Frame::BLANK; BOX_SLOTS] }
    }
}

impl Default for FrameBox {
    fn default() -> FrameBox {
        FrameBox::new()
    }
}

impl Backplane for FrameBox {
    fn cards(&self) -> u8 {
        BOX_CARDS
    }

    fn capacity(&self) -> usize {
        usize::from(BOX_ROOM)
    }

    #[inline(always)]
    fn waiting(&self, lane: Lane) -> Result<usize, u8> {
        self.table.waiting(lane)
    }

    #[inline(always)]
    fn frame_at(&self, lane: Lane, position: usize) -> Result<Frame, u8> {
        Ok(self.frames[self.table.slot_at(lane, position)?])
    }

    #[inline(always)]
    fn send(&mut self, lane: Lane, frame: Frame) -> Result<(), u8> {
        self.frames[self.table.enter(lane)?] = frame;
        Ok(())
    }

    #[inline(always)]
    fn drop_first(&mut self, lane: Lane, k: usize) -> Result<(), u8> {
        self.table.drop_first(lane, k)
    }
}

/// Three, five or seven cards over bytes that the caller lends, 48 for each frame.
pub struct Rings<'a> {
    table: RingTable,
    slots: &'a mut [Slot],
}

/// How many bytes rings of these sizes need.
pub fn bytes_for(cards: u8, room: usize) -> Result<usize, u8> {
    if !matches!(cards, 3 | 5 | 7) || !(1..=MOST_ROOM).contains(&room) {
        return Err(WRONG_SIZE);
    }
    let n = usize::from(cards);
    Ok(n * n * 4 * room * SLOT)
}

impl<'a> Rings<'a> {
    /// Empty rings; no byte is written before a frame is sent.
    pub fn over(bytes: &'a mut [u8], cards: u8, room: usize) -> Result<Rings<'a>, u8> {
        if bytes_for(cards, room)? != bytes.len() {
            return Err(WRONG_SIZE);
        }
        let (slots, _) = bytes.as_chunks_mut::<SLOT>();
        Ok(Rings { table: RingTable::new(cards, room as u16), slots })
    }
}

impl Backplane for Rings<'_> {
    fn cards(&self) -> u8 {
        self.table.cards
    }

    fn capacity(&self) -> usize {
        usize::from(self.table.room)
    }

    #[inline(always)]
    fn waiting(&self, lane: Lane) -> Result<usize, u8> {
        self.table.waiting(lane)
    }

    /// The bytes are lent to the rings alone, so the slot of a waiting frame still holds what
    /// `send` wrote, and need not be checked again.
    #[inline(always)]
    fn frame_at(&self, lane: Lane, position: usize) -> Result<Frame, u8> {
        let slot = self.table.slot_at(lane, position)?;
        Ok(decode(&self.slots[slot]))
    }

    #[inline(always)]
    fn send(&mut self, lane: Lane, frame: Frame) -> Result<(), u8> {
        encode(&frame, &mut self.slots[self.table.enter(lane)?]);
        Ok(())
    }

    #[inline(always)]
    fn drop_first(&mut self, lane: Lane, k: usize) -> Result<(), u8> {
        self.table.drop_first(lane, k)
    }
}
