//! What a rack asks of the lanes between its cards, whatever they are built of.

use crate::frame::Frame;
use crate::refusals::LANE_FULL;

/// From a card, to a card, and the lane's number: 0, 4, 5 or 6.
#[derive(Clone, Copy)]
pub struct Lane {
    pub from: u8,
    pub to: u8,
    pub number: u8,
}

/// The numbers of the lanes from one card to another.
pub(crate) const LANE_NUMBERS: [u8; 4] = [0, 4, 5, 6];

/// Lanes in which frames wait in the order in which they were sent. Where there is no such lane
/// each call answers 1; where nothing waits at a place 6; where a lane has no room 11.
pub trait Backplane {
    fn cards(&self) -> u8;
    fn capacity(&self) -> usize;
    fn waiting(&self, lane: Lane) -> Result<usize, u8>;
    fn frame_at(&self, lane: Lane, position: usize) -> Result<Frame, u8>;
    fn send(&mut self, lane: Lane, frame: Frame) -> Result<(), u8>;
    fn drop_first(&mut self, lane: Lane, k: usize) -> Result<(), u8>;
}

/// Whether nothing waits in any lane.
pub fn is_quiet<B: Backplane>(b: &B) -> bool {
    let n = b.cards();
    (1..=n).all(|from| {
        (1..=n).all(|to| {
            LANE_NUMBERS.into_iter().all(|number| {
                // A card has no lane to itself, and where there is no lane nothing waits.
                !matches!(b.waiting(Lane { from, to, number }), Ok(1..))
            })
        })
    })
}

/// Whether `k` more frames fit into the lane.
pub fn find_room<B: Backplane>(b: &B, lane: Lane, k: usize) -> Result<(), u8> {
    let waiting = b.waiting(lane)?;
    if k <= b.capacity().saturating_sub(waiting) {
        Ok(())
    } else {
        Err(LANE_FULL)
    }
}

/// Sends all the frames, or none where not all of them fit.
pub fn send_all<B: Backplane>(b: &mut B, lane: Lane, frames: &[Frame]) -> Result<(), u8> {
    find_room(b, lane, frames.len())?;
    frames.iter().try_for_each(|frame| b.send(lane, *frame))
}
