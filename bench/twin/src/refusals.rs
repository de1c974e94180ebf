//! The numbers of FORMATS.md. Where a call can fail in several ways, the lowest number answers.

pub(crate) const NO_CARD: u8 = 1;
pub(crate) const WRONG_SIZE: u8 = 2;
pub(crate) const OUT_OF_RANGE: u8 = 3;
pub(crate) const STOPPED: u8 = 4;
pub(crate) const WRONG_ROLE: u8 = 5;
pub(crate) const NOTHING_DUE: u8 = 6;
pub(crate) const NOT_ELECTED: u8 = 7;
pub(crate) const MALFORMED: u8 = 8;
pub(crate) const OUT_OF_TURN: u8 = 9;
pub(crate) const LOG_FULL: u8 = 10;
pub(crate) const LANE_FULL: u8 = 11;
pub(crate) const USED_UP: u8 = 12;
