//! What the generator may ask a running session, whatever its backplane and machine are.

use twin::{Card, Entry, Lane};

pub trait Facts {
    /// The open rack's cards and places.
    fn opened(&self) -> Option<(u8, usize)>;
    fn card(&self, card: u8) -> Option<Card>;
    fn log(&self, card: u8) -> &[Entry];
    /// How many frames wait in a lane of the own backplane, 0 where there is no such lane.
    fn waiting(&self, lane: Lane) -> usize;
    /// The same for the odd backplane.
    fn odd_waiting(&self, lane: Lane) -> usize;
}
