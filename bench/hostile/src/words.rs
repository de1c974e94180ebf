//! The records of numbers that both sides read.

/// Words of one record: a code and 11 arguments.
pub const RECORD: usize = 12;

pub mod code {
    pub const OPEN: u64 = 0;
    pub const TIMEOUT: u64 = 1;
    pub const ELECT: u64 = 2;
    pub const WIN: u64 = 3;
    pub const SUBMIT: u64 = 4;
    pub const SHIP: u64 = 5;
    pub const TAKE: u64 = 6;
    pub const PUSH: u64 = 7;
    pub const LOOK: u64 = 8;
    pub const COMMIT: u64 = 9;
    pub const STOP: u64 = 10;
    pub const READING: u64 = 11;
    pub const LOG: u64 = 12;
    pub const CARD: u64 = 13;
    pub const FITS: u64 = 14;
    pub const PLAY: u64 = 15;
    pub const PUT: u64 = 16;
    pub const APPLY: u64 = 17;
    pub const SEND: u64 = 18;
    pub const DROP: u64 = 19;
    pub const WAITING: u64 = 20;
    pub const FRAME_AT: u64 = 21;
    pub const SIZES: u64 = 22;
    pub const QUIET: u64 = 23;
    pub const FIND_ROOM: u64 = 24;
    pub const SEND_ALL: u64 = 25;
    pub const SLOT_WRITE: u64 = 26;
    pub const SLOT_READ: u64 = 27;
    pub const PAYLOAD: u64 = 28;
    pub const LEAST_EPOCH: u64 = 29;
    pub const SHAPE: u64 = 30;
    pub const WORDS: u64 = 31;
    /// How many codes there are.
    pub const ALL: u64 = 32;
}

pub const NAMES: [&str; 32] = [
    "open",
    "timeout",
    "elect",
    "win",
    "submit",
    "ship",
    "take",
    "push",
    "look",
    "commit",
    "stop",
    "reading",
    "log",
    "card",
    "fits",
    "play",
    "put entry",
    "apply",
    "send",
    "drop",
    "waiting",
    "frame at",
    "sizes",
    "quiet",
    "find room",
    "send all",
    "slot write",
    "slot read",
    "payload",
    "least epoch",
    "shape",
    "words",
];

/// The status of a step that cannot be carried out.
pub const NOT_CARRIED_OUT: u64 = 100;

/// What a rack, its machines and its backplane are made from; laid out as the library reads it.
#[repr(C)]
#[derive(Clone, Copy, PartialEq, Eq, Debug)]
pub struct Setup {
    pub cards: u64,
    pub places: u64,
    pub room: u64,
    pub store: u64,
    pub machine: u64,
}

impl Setup {
    pub fn is_a_racks(&self) -> bool {
        let sized = matches!(self.cards, 3 | 5 | 7) && (1..=1024).contains(&self.places);
        let stored = match self.store {
            0 => (1..=2048).contains(&self.room),
            1 => self.cards == 3 && self.room == 8,
            _ => false,
        };
        sized && stored && self.machine < 2
    }

    pub fn odd_cards(&self) -> u8 {
        if self.cards == 3 {
            5
        } else {
            3
        }
    }

    pub fn entries(&self) -> usize {
        (self.cards * self.places + 4) as usize
    }

    pub fn machines(&self) -> usize {
        (self.cards + 2) as usize
    }

    /// The words of one machine in the dump.
    pub fn machine_words(&self) -> usize {
        if self.machine == 0 {
            32
        } else {
            64
        }
    }
}

pub type Record = [u64; RECORD];

pub fn record(code: u64, arguments: &[u64]) -> Record {
    let mut words = [0; RECORD];
    words[0] = code;
    words[1..=arguments.len()].copy_from_slice(arguments);
    words
}

/// How many records behind this one belong to it.
pub fn behind(record: &[u64]) -> usize {
    match record[0] {
        code::PLAY => record[1].min(16) as usize,
        code::SEND_ALL => record[4].min(16) as usize,
        _ => 0,
    }
}

/// The steps one by one, each with the records that belong to it.
pub fn groups(steps: &[u64]) -> impl Iterator<Item = &[u64]> {
    let mut rest = steps;
    std::iter::from_fn(move || {
        if rest.len() < RECORD {
            return None;
        }
        let words = ((1 + behind(rest)) * RECORD).min(rest.len());
        let (group, others) = rest.split_at(words);
        rest = others;
        Some(group)
    })
}
