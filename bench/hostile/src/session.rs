//! Carries out the steps over the twin.

use crate::dump;
use crate::facts::Facts;
use crate::words::{code, groups, Setup, NOT_CARRIED_OUT, RECORD};
use twin::{
    Answer, Backplane, Board, Call, Card, Entry, Frame, FrameBox, Lane, Ledger, Machine, Rack,
    Rings,
};

/// Does the same thing to the backplane that a step names.
macro_rules! on_lanes {
    ($session:ident, $which:expr, $lanes:ident => $body:expr) => {
        if $which == 0 {
            let $lanes = &mut $session.own;
            $body
        } else {
            let $lanes = &mut $session.odd;
            $body
        }
    };
}

/// An open rack, and the sizes it was opened with.
pub struct Opened {
    pub rack: Rack,
    pub cards: u8,
    pub places: usize,
}

/// A rack with all the memory that is lent to it.
pub struct Session<'b, B, M> {
    pub setup: Setup,
    pub entries: Vec<Entry>,
    pub machines: Vec<M>,
    pub own: B,
    pub odd: Rings<'b>,
    pub opened: Option<Opened>,
}

/// A word's reply where it is accepted: its answer's words, at most eight.
pub type Reply = Result<([u64; 8], usize), u8>;

pub fn answer(words: &[u64]) -> Reply {
    let mut all = [0; 8];
    all[..words.len()].copy_from_slice(words);
    Ok((all, words.len()))
}

fn clip(length: u64, memory: usize) -> usize {
    usize::try_from(length).map_or(memory, |n| n.min(memory))
}

pub fn lane(record: &[u64]) -> Lane {
    Lane { from: record[1] as u8, to: record[2] as u8, number: record[3] as u8 }
}

pub fn frame(fields: &[u64]) -> Result<Frame, u8> {
    let mut eight = [0; 8];
    eight.copy_from_slice(&fields[..8]);
    Frame::new(eight)
}

fn spoken(answered: Answer) -> ([u64; 8], usize) {
    match answered {
        Answer::Epoch((round, leader)) => ([round.into(), leader.into(), 0, 0, 0, 0, 0, 0], 2),
        Answer::Number(number) => ([number.into(), 0, 0, 0, 0, 0, 0, 0], 1),
        Answer::Placed((r, l, c)) => ([r.into(), l.into(), c.into(), 0, 0, 0, 0, 0], 3),
        Answer::Done => ([0; 8], 0),
    }
}

/// A record as a call within a play.
fn call(record: &[u64]) -> Call {
    let (card, second) = (record[1] as u8, record[2] as u8);
    match record[0] {
        code::TIMEOUT => Call::Timeout(card),
        code::ELECT => Call::Elect(card),
        code::WIN => Call::Win(card),
        code::SUBMIT => Call::Submit(card, second, (record[3], record[4], record[5])),
        code::SHIP => Call::Ship(card, second),
        code::TAKE => Call::Take(card, second),
        code::PUSH => Call::Push(card, second, record[3] as u8),
        code::LOOK => Call::Look(card, second, record[3] as u8),
        code::COMMIT => Call::Commit(card),
        code::STOP => Call::Stop(card),
        _ => Call::Stop(0),
    }
}

impl<'b, B: Backplane, M: Machine> Session<'b, B, M> {
    pub fn over(setup: Setup, own: B, odd: Rings<'b>) -> Session<'b, B, M> {
        let blank = Entry { header: (0, 1, 1), queue: 0, payload: (0, 0, 0) };
        Session {
            setup,
            entries: vec![blank; setup.entries()],
            machines: (0..setup.machines()).map(|_| M::start()).collect(),
            own,
            odd,
            opened: None,
        }
    }

    /// One step; `group` is its record and the records that belong to it.
    pub fn step(&mut self, group: &[u64], out: &mut Vec<u64>) {
        let start = out.len();
        out.push(0);
        self.reply(group, out);
        out[start] = (out.len() - start - 1) as u64;
        let start = out.len();
        out.push(0);
        dump::everything(self, out);
        out[start] = (out.len() - start - 1) as u64;
    }

    fn reply(&mut self, group: &[u64], out: &mut Vec<u64>) {
        let reply = match group[0] {
            code::OPEN => Some(self.open(group)),
            code::TIMEOUT..=code::STOP => self.call(group),
            code::READING => return self.reading(group, out),
            code::LOG => return self.log(group, out),
            code::CARD => return self.card_words(group, out),
            code::FITS => self.fits(group),
            code::PLAY => return self.play(group, out),
            code::PUT => self.put(group),
            code::APPLY => self.apply(group),
            code::SEND..=code::SEND_ALL => Some(self.lanes(group)),
            code::SLOT_WRITE => return crate::slots::write(group, out),
            code::SLOT_READ => Some(crate::slots::read(group)),
            code::PAYLOAD..=code::WORDS => Some(crate::slots::numbers::<M>(group)),
            _ => None,
        };
        match reply {
            None => out.push(NOT_CARRIED_OUT),
            Some(Err(refusal)) => out.push(refusal.into()),
            Some(Ok((words, used))) => {
                out.push(0);
                out.extend_from_slice(&words[..used]);
            }
        }
    }

    fn open(&mut self, r: &[u64]) -> Reply {
        let (cards, places) = (r[1] as u8, r[2] as usize);
        let entries = &self.entries[..clip(r[3], self.entries.len())];
        let count = clip(r[4], self.machines.len());
        let machines = &mut self.machines[..count];
        let rack = on_lanes!(self, r[5], b => Rack::open(cards, places, entries, machines, b))?;
        self.opened = Some(Opened { rack, cards, places });
        answer(&[])
    }

    fn call(&mut self, r: &[u64]) -> Option<Reply> {
        let rack = &mut self.opened.as_mut()?.rack;
        let (card, second, third) = (r[1] as u8, r[2] as u8, r[3] as u8);
        let lent = match r[0] {
            code::SUBMIT => r[6],
            code::COMMIT => r[2],
            _ => r[3],
        };
        let length = clip(lent, self.entries.len());
        let entries = &mut self.entries[..length];
        let answered =
            match r[0] {
                code::TIMEOUT => rack.timeout(card).map(Answer::Epoch),
                code::ELECT => rack.elect(card).map(|n| Answer::Number(n.into())),
                code::WIN => rack.win(card).map(Answer::Epoch),
                code::SUBMIT => {
                    rack.submit(entries, card, second, (r[3], r[4], r[5])).map(Answer::Placed)
                }
                code::SHIP => on_lanes!(self, r[4], b => rack.ship(entries, b, card, second))
                    .map(Answer::Number),
                code::TAKE => on_lanes!(self, r[4], b => rack.take(entries, b, card, second))
                    .map(|n| Answer::Number(n.into())),
                code::PUSH => on_lanes!(self, r[4], b => rack.push(b, card, second, third))
                    .map(|()| Answer::Done),
                code::LOOK => on_lanes!(self, r[4], b => rack.look(b, card, second, third))
                    .map(|()| Answer::Done),
                code::COMMIT => {
                    let count = clip(r[3], self.machines.len());
                    rack.commit(entries, &mut self.machines[..count], card).map(Answer::Number)
                }
                _ => rack.stop(card).map(|()| Answer::Done),
            };
        Some(answered.map(spoken))
    }

    /// The whole buffer is told, so that what a refused reading wrote would be seen.
    fn reading(&mut self, r: &[u64], out: &mut Vec<u64>) {
        let Some(opened) = self.opened.as_ref() else { return out.push(NOT_CARRIED_OUT) };
        let entries = &self.entries[..clip(r[2], self.entries.len())];
        let filler = Entry { header: (0, 1, 1), queue: 15, payload: (7, 7, 7) };
        let mut buffer = vec![filler; clip(r[3], self.setup.places as usize + 4)];
        match opened.rack.reading(entries, r[1] as u8, &mut buffer) {
            Ok(count) => out.extend_from_slice(&[0, count as u64]),
            Err(refusal) => out.extend_from_slice(&[refusal.into(), 0]),
        }
        dump::entries(&buffer, out);
    }

    fn log(&self, r: &[u64], out: &mut Vec<u64>) {
        let Some(opened) = self.opened.as_ref() else { return out.push(NOT_CARRIED_OUT) };
        let entries = &self.entries[..clip(r[2], self.entries.len())];
        match opened.rack.log(entries, r[1] as u8) {
            Ok(log) => {
                out.extend_from_slice(&[0, log.len() as u64]);
                dump::entries(log, out);
            }
            Err(refusal) => out.push(refusal.into()),
        }
    }

    fn card_words(&self, r: &[u64], out: &mut Vec<u64>) {
        let Some(opened) = self.opened.as_ref() else { return out.push(NOT_CARRIED_OUT) };
        match opened.rack.card(r[1] as u8) {
            Ok(card) => {
                out.push(0);
                dump::card(&card, out);
            }
            Err(refusal) => out.push(refusal.into()),
        }
    }

    fn fits(&self, r: &[u64]) -> Option<Reply> {
        let rack = &self.opened.as_ref()?.rack;
        Some(answer(&[rack.fits(r[1] as usize, r[2] as usize, r[3] as u8).into()]))
    }

    fn play(&mut self, group: &[u64], out: &mut Vec<u64>) {
        let Some(opened) = self.opened.as_mut() else { return out.push(NOT_CARRIED_OUT) };
        let mut calls = [Call::Stop(0); 16];
        let mut count = 0;
        for record in group[RECORD..].chunks_exact(RECORD) {
            calls[count] = call(record);
            count += 1;
        }
        let mut places = [Ok(Answer::Done); 20];
        let replies = &mut places[..clip(group[2], 20)];
        let length = clip(group[3], self.entries.len());
        let entries = &mut self.entries[..length];
        let length = clip(group[4], self.machines.len());
        let machines = &mut self.machines[..length];
        let (rack, calls) = (&mut opened.rack, &calls[..count]);
        let played =
            on_lanes!(self, group[5], b => twin::play(rack, entries, machines, b, calls, replies));
        out.push(played.map_or_else(u64::from, |()| 0));
        for reply in replies.iter() {
            match *reply {
                Ok(answered) => {
                    let (words, _) = spoken(answered);
                    out.extend_from_slice(&[0, words[0], words[1], words[2]]);
                }
                Err(refusal) => out.extend_from_slice(&[refusal.into(), 0, 0, 0]),
            }
        }
    }

    fn put(&mut self, r: &[u64]) -> Option<Reply> {
        // What is no entry is refused before its place is looked for.
        let entry = match crate::slots::entry(&r[2..]) {
            Ok(entry) => entry,
            Err(refusal) => return Some(Err(refusal)),
        };
        *self.entries.get_mut(usize::try_from(r[1]).ok()?)? = entry;
        Some(answer(&[]))
    }

    fn apply(&mut self, r: &[u64]) -> Option<Reply> {
        let machine = self.machines.get_mut(usize::try_from(r[1]).ok()?)?;
        machine.apply_words(r[2] as u8, (r[3], r[4], r[5]));
        Some(answer(&[]))
    }

    fn lanes(&mut self, r: &[u64]) -> Reply {
        let at = lane(r);
        match r[0] {
            code::SEND => self.own.send(at, frame(&r[4..])?).and_then(|()| answer(&[])),
            code::DROP => on_lanes!(self, r[5], b => b.drop_first(at, r[4] as usize))
                .and_then(|()| answer(&[])),
            code::WAITING => {
                on_lanes!(self, r[4], b => b.waiting(at)).and_then(|n| answer(&[n as u64]))
            }
            code::FRAME_AT => on_lanes!(self, r[5], b => b.frame_at(at, r[4] as usize))
                .and_then(|f| answer(&f.fields())),
            code::SIZES => {
                on_lanes!(self, r[1], b => answer(&[b.cards().into(), b.capacity() as u64]))
            }
            code::QUIET => on_lanes!(self, r[1], b => answer(&[twin::is_quiet(b).into()])),
            code::FIND_ROOM => on_lanes!(self, r[5], b => twin::find_room(b, at, r[4] as usize))
                .and_then(|()| answer(&[])),
            _ => self.send_all(r),
        }
    }

    fn send_all(&mut self, group: &[u64]) -> Reply {
        let made = group[RECORD..].chunks_exact(RECORD).filter_map(|r| frame(&r[1..9]).ok());
        let frames: Vec<Frame> = made.collect();
        twin::send_all(&mut self.own, lane(group), &frames).and_then(|()| answer(&[]))
    }
}

impl<B: Backplane, M: Machine> Facts for Session<'_, B, M> {
    fn opened(&self) -> Option<(u8, usize)> {
        self.opened.as_ref().map(|opened| (opened.cards, opened.places))
    }

    fn card(&self, card: u8) -> Option<Card> {
        self.opened.as_ref()?.rack.card(card).ok()
    }

    fn log(&self, card: u8) -> &[Entry] {
        let Some(opened) = self.opened.as_ref() else { return &[] };
        let used = usize::from(opened.cards) * opened.places;
        opened.rack.log(&self.entries[..used], card).unwrap_or(&[])
    }

    fn waiting(&self, lane: Lane) -> usize {
        self.own.waiting(lane).unwrap_or(0)
    }

    fn odd_waiting(&self, lane: Lane) -> usize {
        self.odd.waiting(lane).unwrap_or(0)
    }
}

/// What is done with a session once its kinds of backplane and machine are known.
pub trait Visit {
    fn visit<B: Backplane, M: Machine>(&mut self, session: Session<'_, B, M>);
}

/// Makes the session that a setup names; false where it names none.
pub fn with_session(setup: Setup, bytes: &mut [Vec<u8>; 2], visit: &mut impl Visit) -> bool {
    if !setup.is_a_racks() {
        return false;
    }
    let [own, odd] = bytes;
    let (Some(odd), cards) = (rings(odd, setup.odd_cards(), 1), setup.cards as u8) else {
        return false;
    };
    if setup.store == 1 {
        machines(setup, FrameBox::new(), odd, visit);
        return true;
    }
    match rings(own, cards, setup.room as usize) {
        Some(own) => machines(setup, own, odd, visit),
        None => return false,
    }
    true
}

fn rings(bytes: &mut Vec<u8>, cards: u8, room: usize) -> Option<Rings<'_>> {
    let length = twin::bytes_for(cards, room).ok()?;
    // What free slots hold is open, so bytes of an earlier case may stay.
    if bytes.len() < length {
        bytes.resize(length, 0xA5);
    }
    Rings::over(&mut bytes[..length], cards, room).ok()
}

fn machines<B: Backplane>(setup: Setup, own: B, odd: Rings<'_>, visit: &mut impl Visit) {
    if setup.machine == 0 {
        visit.visit(Session::<B, Ledger>::over(setup, own, odd));
    } else {
        visit.visit(Session::<B, Board>::over(setup, own, odd));
    }
}

/// Steps that there are already, one after another.
pub struct Straight<'s>(pub &'s [u64], pub &'s mut Vec<u64>);

impl Visit for Straight<'_> {
    fn visit<B: Backplane, M: Machine>(&mut self, mut session: Session<'_, B, M>) {
        groups(self.0).for_each(|group| session.step(group, self.1));
    }
}

/// All the steps on a rack of its own; false where the setup is no rack's. The harness itself
/// needs it only where the twin stands in for the library.
#[cfg_attr(not(feature = "twin-only"), allow(dead_code))]
pub fn session(setup: Setup, steps: &[u64], out: &mut Vec<u64>) -> bool {
    with_session(setup, &mut [Vec::new(), Vec::new()], &mut Straight(steps, out))
}
