//! The same loops over the twin.
use twin::{
    bytes_for, read_slot, write_slot, Backplane, Entry, Frame, FrameBox, Lane, Ledger, Machine,
    Rack, Rings,
};

const SLOTS: usize = 8;
const SLOT: usize = 48;
const REFUSED: u64 = u64::MAX;

fn message(k: u64) -> Result<Frame, u8> {
    let count = (k & 65535) + 1;
    Frame::new([1, 1, 1, count, k & 15, k, k ^ 12345, k >> 3])
}

pub fn slot_write(rounds: u64) -> u64 {
    let write = || {
        let mut bytes = [0u8; SLOTS * SLOT];
        for k in 0..rounds {
            write_slot(&mut bytes, (k as usize & 7) * SLOT, message(k)?)?;
        }
        Ok::<u64, u8>(bytes.iter().fold(0, |sum: u64, byte| sum.wrapping_add(u64::from(*byte))))
    };
    write().unwrap_or(REFUSED)
}

pub fn slot_read(rounds: u64) -> u64 {
    let read = || {
        let mut bytes = [0u8; SLOTS * SLOT];
        for k in 0..8u64 {
            write_slot(&mut bytes, (k as usize & 7) * SLOT, message(k)?)?;
        }
        let mut sum = 0u64;
        for k in 0..rounds {
            let fields = read_slot(&bytes, (k as usize & 7) * SLOT)?.fields();
            sum = sum.wrapping_add(fields[1]).wrapping_add(fields[5]);
        }
        Ok::<u64, u8>(sum)
    };
    read().unwrap_or(REFUSED)
}

fn send_and_drop<B: Backplane>(backplane: &mut B, backlog: usize, rounds: u64) -> Result<u64, u8> {
    let lane = Lane { from: 1, to: 2, number: 0 };
    for k in 0..backlog {
        backplane.send(lane, message(k as u64)?)?;
    }
    let mut sum = 0u64;
    for k in 0..rounds {
        backplane.send(lane, message(k)?)?;
        sum = sum.wrapping_add(backplane.frame_at(lane, 0)?.fields()[5]);
        backplane.drop_first(lane, 1)?;
    }
    Ok(sum)
}

pub fn ring(cards: u8, room: usize, backlog: usize, rounds: u64) -> u64 {
    let Ok(len) = bytes_for(cards, room) else { return REFUSED };
    let mut bytes = vec![0u8; len];
    match Rings::over(&mut bytes, cards, room) {
        Ok(mut rings) => send_and_drop(&mut rings, backlog, rounds).unwrap_or(REFUSED),
        Err(_) => REFUSED,
    }
}

pub fn frame_box(backlog: usize, rounds: u64) -> u64 {
    send_and_drop(&mut FrameBox::new(), backlog, rounds).unwrap_or(REFUSED)
}

struct Desk<'a, B: Backplane> {
    cards: u8,
    places: usize,
    rack: Rack,
    entries: Vec<Entry>,
    machines: Vec<Ledger>,
    backplane: &'a mut B,
}

impl<B: Backplane> Desk<'_, B> {
    fn reopen(&mut self) -> Result<(), u8> {
        self.rack = Rack::open(
            self.cards,
            self.places,
            &self.entries,
            &mut self.machines,
            &*self.backplane,
        )?;
        self.elect_first()?;
        self.accept_others()?;
        self.rack.commit(&self.entries, &mut self.machines, 1)?;
        self.book(0)?;
        for peer in 2..=self.cards {
            self.rack.commit(&self.entries, &mut self.machines, peer)?;
        }
        Ok(())
    }

    fn tell(&mut self, from: u8, to: u8, kind: u8) -> Result<(), u8> {
        self.rack.push(self.backplane, from, to, kind)?;
        self.rack.look(self.backplane, to, from, kind)
    }

    fn elect_first(&mut self) -> Result<(), u8> {
        self.rack.timeout(1)?;
        for peer in 2..=self.cards {
            self.tell(1, peer, 5)?;
            self.rack.elect(peer)?;
            self.tell(peer, 1, 5)?;
        }
        self.rack.win(1)?;
        Ok(())
    }

    fn leave_first(&mut self) -> Result<(), u8> {
        for peer in 2..=self.cards {
            self.rack.timeout(peer)?;
        }
        Ok(())
    }

    fn follow_first(&mut self) -> Result<u64, u8> {
        let mut frames = 0u64;
        for peer in 2..=self.cards {
            frames += u64::from(self.rack.ship(&self.entries, self.backplane, 1, peer)?);
            self.rack.take(&mut self.entries, self.backplane, peer, 1)?;
        }
        Ok(frames)
    }

    fn accept_others(&mut self) -> Result<(), u8> {
        for peer in 2..=self.cards {
            self.rack.ship(&self.entries, self.backplane, 1, peer)?;
            self.rack.take(&mut self.entries, self.backplane, peer, 1)?;
            self.tell(peer, 1, 4)?;
        }
        Ok(())
    }

    fn submit(&mut self, k: u64) -> Result<(), u8> {
        let payload = (k & 31, 2147483648 + (k & 63), 0);
        self.rack.submit(&mut self.entries, 1, (k & 15) as u8, payload)?;
        Ok(())
    }

    fn book(&mut self, k: u64) -> Result<u64, u8> {
        self.submit(k)?;
        self.accept_others()?;
        let mut delivered = u64::from(self.rack.commit(&self.entries, &mut self.machines, 1)?);
        for peer in 2..=self.cards {
            self.tell(1, peer, 6)?;
            delivered += u64::from(self.rack.commit(&self.entries, &mut self.machines, peer)?);
        }
        Ok(delivered)
    }
}

fn on_racks(
    cards: u8,
    places: usize,
    room: usize,
    racks: u64,
    deed: impl Fn(&mut Desk<'_, Rings<'_>>) -> Result<u64, u8>,
) -> Result<u64, u8> {
    let mut bytes = vec![0u8; bytes_for(cards, room)?];
    let mut rings = Rings::over(&mut bytes, cards, room)?;
    let entries = vec![Entry::new((0, 1, 1), 0, (0, 0, 0))?; cards as usize * places];
    let mut machines = vec![Ledger::start(); cards as usize];
    let rack = Rack::open(cards, places, &entries, &mut machines, &rings)?;
    let mut desk = Desk { cards, places, rack, entries, machines, backplane: &mut rings };
    let mut sum = 0u64;
    for _ in 0..racks {
        desk.reopen()?;
        sum = sum.wrapping_add(deed(&mut desk)?);
    }
    Ok(sum)
}

pub fn book(cards: u8, places: usize, room: usize, racks: u64, bookings: u64) -> u64 {
    on_racks(cards, places, room, racks, |desk| {
        let mut sum = 0u64;
        for k in 0..bookings {
            sum = sum.wrapping_add(desk.book(k)?);
        }
        Ok(sum)
    })
    .unwrap_or(REFUSED)
}

pub fn elect(cards: u8, places: usize, room: usize, racks: u64, backlog: u64) -> u64 {
    on_racks(cards, places, room, racks, |desk| {
        for k in 0..backlog {
            desk.submit(k)?;
        }
        desk.leave_first()?;
        desk.elect_first()?;
        desk.follow_first()
    })
    .unwrap_or(REFUSED)
}
