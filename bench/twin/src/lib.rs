//! A rack of voting cards, written from the project's pages alone.
//!
//! Everything is changed in place in memory that the caller lends; no call allocates, and no call
//! of the everyday path (submit, ship, take, push, look, commit) walks a log or a lane from end to
//! end. Refusals are the plain numbers of FORMATS.md.

mod backplane;
mod card;
mod exchange;
mod frame;
mod log;
mod machine;
mod marks;
mod play;
mod rack;
mod refusals;
mod rings;
mod slot;

pub use backplane::{find_room, is_quiet, send_all, Backplane, Lane};
pub use card::{Card, PeerRow, Role};
pub use frame::{Entry, Frame};
pub use machine::{Board, Ledger, Machine, Words};
pub use marks::{least_epoch, Epoch, Header, Vote};
pub use play::{play, Answer, Call};
pub use rack::Rack;
pub use rings::{bytes_for, FrameBox, Rings};
pub use slot::{read_slot, write_slot};
