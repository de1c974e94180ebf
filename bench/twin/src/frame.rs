//! What stands in logs (entries) and what waits in lanes (frames).

use crate::machine::Words;
use crate::marks::{is_epoch, is_header, start_of, Epoch, Header, Vote, NULL_EPOCH};
use crate::refusals::{MALFORMED, OUT_OF_RANGE};

pub(crate) const MESSAGE: u8 = 1;
pub(crate) const DIFF_HEAD: u8 = 2;
pub(crate) const DIFF_ENTRY: u8 = 3;
pub(crate) const ACCEPT_ROW: u8 = 4;
pub(crate) const VOTE_ROW: u8 = 5;
pub(crate) const COMMIT_ROW: u8 = 6;

pub(crate) const LAST_QUEUE: u8 = 15;
/// A diff announces at most as many entries as the largest log has places.
pub(crate) const MOST_ENTRIES: usize = 1024;

/// One accepted submit, as it stands in a log.
#[derive(Clone, Copy, PartialEq, Eq, Debug)]
pub struct Entry {
    pub header: Header,
    pub queue: u8,
    pub payload: Words,
}

/// An entry's header is one that a submit can have given out.
fn is_entry_header(header: Header) -> bool {
    is_header(header) && header.2 >= 1
}

impl Entry {
    pub fn new(header: Header, queue: u8, payload: Words) -> Result<Entry, u8> {
        if queue > LAST_QUEUE {
            return Err(OUT_OF_RANGE);
        }
        if !is_entry_header(header) {
            return Err(MALFORMED);
        }
        Ok(Entry { header, queue, payload })
    }
}

/// Eight numbers whose form its kind fixes. The fields are private, so each frame is well formed.
#[derive(Clone, Copy, PartialEq, Eq, Debug)]
pub struct Frame {
    kind: u8,
    leader: u8,
    round: u32,
    count: u32,
    words: [u64; 4],
}

impl Frame {
    /// Kind, round, leader, count, w1 to w4.
    pub fn new(fields: [u64; 8]) -> Result<Frame, u8> {
        let [kind, round, leader, count, w1, w2, w3, w4] = fields;
        let header = (narrow(round)?, narrow(leader)?, narrow(count)?);
        Frame::raw(narrow(kind)?, header, [w1, w2, w3, w4]).checked()
    }

    pub fn fields(&self) -> [u64; 8] {
        let [w1, w2, w3, w4] = self.words;
        [self.kind.into(), self.round.into(), self.leader.into(), self.count.into(), w1, w2, w3, w4]
    }

    /// Fields that are a frame's, or are still to be checked.
    #[inline]
    pub(crate) fn raw(kind: u8, (round, leader, count): Header, words: [u64; 4]) -> Frame {
        Frame { kind, leader, round, count, words }
    }

    pub(crate) fn checked(self) -> Result<Frame, u8> {
        if self.is_formed() {
            Ok(self)
        } else {
            Err(MALFORMED)
        }
    }

    fn is_formed(&self) -> bool {
        match self.kind {
            MESSAGE | DIFF_ENTRY => {
                is_entry_header(self.header()) && self.words[0] <= u64::from(LAST_QUEUE)
            }
            DIFF_HEAD => {
                let led = is_epoch(self.epoch()) && self.epoch() != NULL_EPOCH;
                let few = self.words[3] <= MOST_ENTRIES as u64;
                led && self.count == 0 && self.words_are_header() && few
            }
            ACCEPT_ROW | COMMIT_ROW => is_header(self.header()) && self.words == [0; 4],
            VOTE_ROW => {
                let bare = self.count == 0 && self.words[3] == 0;
                bare && is_epoch(self.epoch()) && self.words_are_header()
            }
            _ => false,
        }
    }

    fn words_are_header(&self) -> bool {
        let [round, leader, count, _] = self.words;
        match (u32::try_from(round), u8::try_from(leader), u32::try_from(count)) {
            (Ok(round), Ok(leader), Ok(count)) => is_header((round, leader, count)),
            _ => false,
        }
    }

    #[inline]
    fn of_entry(kind: u8, entry: &Entry) -> Frame {
        let (w2, w3, w4) = entry.payload;
        Frame::raw(kind, entry.header, [entry.queue.into(), w2, w3, w4])
    }

    #[inline]
    pub(crate) fn message(entry: &Entry) -> Frame {
        Frame::of_entry(MESSAGE, entry)
    }

    #[inline]
    pub(crate) fn diff_entry(entry: &Entry) -> Frame {
        Frame::of_entry(DIFF_ENTRY, entry)
    }

    pub(crate) fn diff_head(epoch: Epoch, base: Header, follow: usize) -> Frame {
        let words = [base.0.into(), base.1.into(), base.2.into(), follow as u64];
        Frame::raw(DIFF_HEAD, start_of(epoch), words)
    }

    #[inline]
    pub(crate) fn accept_row(header: Header) -> Frame {
        Frame::raw(ACCEPT_ROW, header, [0; 4])
    }

    #[inline]
    pub(crate) fn vote_row((epoch, header): Vote) -> Frame {
        let words = [header.0.into(), header.1.into(), header.2.into(), 0];
        Frame::raw(VOTE_ROW, start_of(epoch), words)
    }

    #[inline]
    pub(crate) fn commit_row(header: Header) -> Frame {
        Frame::raw(COMMIT_ROW, header, [0; 4])
    }

    /// An empty place of the frame box holds a frame too, so that no `Option` is kept beside it.
    pub(crate) const BLANK: Frame =
        Frame { kind: ACCEPT_ROW, leader: 0, round: 0, count: 0, words: [0; 4] };

    #[inline]
    pub(crate) fn kind(&self) -> u8 {
        self.kind
    }

    #[inline]
    pub(crate) fn words(&self) -> [u64; 4] {
        self.words
    }

    #[inline]
    pub(crate) fn leader(&self) -> u8 {
        self.leader
    }

    #[inline]
    pub(crate) fn epoch(&self) -> Epoch {
        (self.round, self.leader)
    }

    #[inline]
    pub(crate) fn header(&self) -> Header {
        (self.round, self.leader, self.count)
    }

    /// The base of a diff head, or the header of a vote row.
    #[inline]
    pub(crate) fn header_of_words(&self) -> Header {
        (self.words[0] as u32, self.words[1] as u8, self.words[2] as u32)
    }

    /// How many entries a diff head announces.
    pub(crate) fn announced(&self) -> usize {
        self.words[3] as usize
    }

    /// What a message or a diff entry carries.
    #[inline]
    pub(crate) fn entry(&self) -> Entry {
        let [queue, w2, w3, w4] = self.words;
        Entry { header: self.header(), queue: queue as u8, payload: (w2, w3, w4) }
    }
}

fn narrow<T: TryFrom<u64>>(number: u64) -> Result<T, u8> {
    T::try_from(number).map_err(|_| MALFORMED)
}
