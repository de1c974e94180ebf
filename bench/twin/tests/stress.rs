//! Calls of every kind with wild numbers, over logs and lanes whose content is forged between
//! them: no call panics, and a refusal changes nothing.

use twin::*;

/// A small generator of numbers (splitmix64), so that each run is the same.
struct Dice(u64);

impl Dice {
    fn next(&mut self) -> u64 {
        self.0 = self.0.wrapping_add(0x9E37_79B9_7F4A_7C15);
        let mut z = self.0;
        z = (z ^ (z >> 30)).wrapping_mul(0xBF58_476D_1CE4_E5B9);
        z = (z ^ (z >> 27)).wrapping_mul(0x94D0_49BB_1331_11EB);
        z ^ (z >> 31)
    }

    fn below(&mut self, limit: u64) -> u64 {
        self.next() % limit
    }

    fn one_of(&mut self, list: &[u64]) -> u64 {
        list[self.below(list.len() as u64) as usize]
    }

    fn card(&mut self, n: u8) -> u8 {
        if self.below(30) == 0 {
            return self.one_of(&[0, 8, 255]) as u8;
        }
        1 + self.below(n.into()) as u8
    }

    fn round(&mut self) -> u64 {
        match self.below(40) {
            0 => u64::from(u32::MAX) - self.below(2),
            _ => self.below(3),
        }
    }

    fn count(&mut self) -> u64 {
        match self.below(40) {
            0 => u64::from(u32::MAX) - 1 - self.below(2),
            _ => self.below(6),
        }
    }

    fn entry(&mut self, n: u8) -> Option<Entry> {
        let header = (self.round() as u32, self.card(n), self.count() as u32);
        let payload = (self.below(70), self.one_of(&[0, 1, 2, 1 << 31, u64::MAX]), self.below(2));
        Entry::new(header, self.below(17) as u8, payload).ok()
    }

    fn frame(&mut self, n: u8) -> Option<Frame> {
        let (kind, leader) = (1 + self.below(6), u64::from(self.card(n)));
        let (round, count) = (self.round(), self.count());
        let base = [self.round(), self.card(n).into(), self.count()];
        let (count, words) = match kind {
            2 => (0, [base[0], base[1], base[2], self.below(4)]),
            5 => (0, [base[0], base[1], base[2], 0]),
            4 | 6 => (count, [0; 4]),
            _ => (count, [self.below(16), self.below(64), self.below(3), self.below(2)]),
        };
        let [w1, w2, w3, w4] = words;
        Frame::new([kind, round, leader, count, w1, w2, w3, w4]).ok()
    }

    fn call(&mut self, n: u8) -> Call {
        let (card, peer) = (self.card(n), self.card(n));
        let kind = 4 + self.below(3) as u8 + 200 * u8::from(self.below(30) == 0);
        match self.below(24) {
            0 => Call::Timeout(card),
            1..=2 => Call::Elect(card),
            3..=4 => Call::Win(card),
            5..=6 => Call::Submit(card, self.below(17) as u8, (1, 1, 1)),
            7..=9 => Call::Ship(card, peer),
            10..=13 => Call::Take(card, peer),
            14..=16 => Call::Push(card, peer, kind),
            17..=19 => Call::Look(card, peer, kind),
            20..=22 => Call::Commit(card),
            _ if self.below(60) == 0 => Call::Stop(card),
            _ => Call::Commit(card),
        }
    }
}

/// Calls that lead somewhere: an election of one card, or entries on their way to a peer.
fn plan(dice: &mut Dice, n: u8) -> Vec<Call> {
    let (card, peer) = (dice.card(n), dice.card(n));
    match dice.below(30) {
        0 => {
            let mut calls = vec![Call::Timeout(card)];
            for peer in (1..=n).filter(|peer| *peer != card) {
                calls.extend([Call::Push(card, peer, 5), Call::Look(peer, card, 5)]);
                calls.extend([Call::Look(peer, card, 5), Call::Elect(peer)]);
                calls.extend([Call::Push(peer, card, 5), Call::Look(card, peer, 5)]);
            }
            calls.push(Call::Win(card));
            calls
        }
        1..=6 => vec![
            Call::Submit(card, 4, (3, 1, 5)),
            Call::Ship(card, peer),
            Call::Take(peer, card),
            Call::Push(peer, card, 4),
            Call::Look(card, peer, 4),
            Call::Commit(card),
            Call::Push(card, peer, 6),
            Call::Look(peer, card, 6),
            Call::Commit(peer),
        ],
        _ => vec![dice.call(n)],
    }
}

/// All that a caller can see of a rack and of what is lent to it.
fn seen<B: Backplane, M: Machine>(
    rack: &Rack,
    entries: &[Entry],
    machines: &[M],
    plane: &B,
) -> (Vec<Card>, Vec<Entry>, Vec<u64>, Vec<Frame>) {
    let n = plane.cards();
    let cards = (1..=n).map(|card| rack.card(card).unwrap()).collect();
    let mut numbers = vec![rack.tally()];
    machines.iter().for_each(|machine| machine.dump(&mut numbers));
    let used = (1..=n).map(|card| rack.log(entries, card).unwrap().len() as u64);
    numbers.extend(used);
    let mut frames = Vec::new();
    for (from, to) in (1..=n).flat_map(|from| (1..=n).map(move |to| (from, to))) {
        for number in [0, 4, 5, 6] {
            let lane = Lane { from, to, number };
            for position in 0..plane.waiting(lane).unwrap_or(0) {
                frames.push(plane.frame_at(lane, position).unwrap());
            }
        }
    }
    (cards, entries.to_vec(), numbers, frames)
}

/// Puts another entry into a log or frame into a lane, as a caller may.
fn forge<B: Backplane>(dice: &mut Dice, entries: &mut [Entry], plane: &mut B) {
    let n = plane.cards();
    let place = dice.below(entries.len() as u64) as usize;
    if dice.below(4) == 0 {
        entries[place] = dice.entry(n).unwrap_or(entries[place]);
        return;
    }
    let number = dice.one_of(&[0, 0, 0, 4, 5, 6]) as u8;
    let lane = Lane { from: dice.card(n), to: dice.card(n), number };
    match dice.frame(n) {
        Some(frame) => drop(plane.send(lane, frame)),
        None => drop(plane.drop_first(lane, dice.below(3) as usize)),
    }
}

fn session<B: Backplane, M: Machine>(dice: &mut Dice, mut plane: B, tally: &mut [u64; 13]) {
    let (n, places) = (plane.cards(), 1 + dice.below(5) as usize);
    let blank = Entry::new((0, 1, 1), 0, (0, 0, 0)).unwrap();
    let mut entries = vec![blank; usize::from(n) * places];
    let mut machines = vec![M::start(); usize::from(n)];
    let mut rack = Rack::open(n, places, &entries, &mut machines, &plane).unwrap();
    for _ in 0..200 {
        if dice.below(5) == 0 {
            forge(dice, &mut entries, &mut plane);
        }
        for call in plan(dice, n) {
            let before = seen(&rack, &entries, &machines, &plane);
            let mut replies = [Err(0)];
            play(&mut rack, &mut entries, &mut machines, &mut plane, &[call], &mut replies)
                .unwrap();
            tally[replies[0].err().map_or(0, usize::from)] += 1;
            if replies[0].is_err() {
                let after = seen(&rack, &entries, &machines, &plane);
                assert!(before == after, "{call:?}: {replies:?}, but something changed");
            }
        }
    }
}

#[test]
fn refusals_change_nothing() {
    let mut dice = Dice(7);
    let mut tally = [0; 13];
    for _ in 0..150 {
        session::<_, Ledger>(&mut dice, FrameBox::new(), &mut tally);
        for n in [3, 5, 7] {
            let room = 1 + dice.below(6) as usize;
            let mut bytes = vec![0xFF; bytes_for(n, room).unwrap()];
            let rings = Rings::over(&mut bytes, n, room).unwrap();
            session::<_, Board>(&mut dice, rings, &mut tally);
        }
    }
    println!("accepted, then by refusal: {tally:?}");
    let reached = |refusal: usize| tally[refusal] > 0;
    assert!((0..13).filter(|refusal| *refusal != 2).all(reached));
}

#[test]
fn wrong_memory_is_refused_by_2() {
    let entry = Entry::new((0, 1, 1), 0, (0, 0, 0)).unwrap();
    let mut entries = vec![entry; 6];
    let mut machines = vec![Ledger::start(); 3];
    let mut plane = FrameBox::new();
    let mut bytes = vec![0; bytes_for(5, 1).unwrap()];
    let mut odd = Rings::over(&mut bytes, 5, 1).unwrap();
    let mut rack = Rack::open(3, 2, &entries, &mut machines, &plane).unwrap();
    assert!(Rack::open(4, 2, &entries, &mut machines, &plane).is_err());
    assert!(Rack::open(3, usize::MAX, &entries, &mut machines, &plane).is_err());
    assert!(Rack::open(3, 2, &entries, &mut machines, &odd).is_err());
    assert_eq!(rack.submit(&mut entries[..5], 1, 99, (0, 0, 0)), Err(2));
    assert_eq!(rack.submit(&mut entries[..5], 0, 99, (0, 0, 0)), Err(1));
    assert_eq!(rack.take(&mut entries, &mut odd, 1, 2), Err(2));
    assert_eq!(rack.ship(&[], &mut plane, 1, 2), Err(2));
    assert_eq!(rack.push(&mut odd, 1, 2, 9), Err(2));
    assert_eq!(rack.look(&mut odd, 1, 1, 9), Err(1));
    assert_eq!(rack.commit(&entries, &mut machines[..2], 1), Err(2));
    assert_eq!(rack.log(&entries[..5], 1), Err(2));
    assert_eq!(rack.reading(&entries, 1, &mut []), Ok(0));
}

#[test]
fn slots_are_the_pages() {
    let frame = Frame::new([1, 0, 1, 1, 4, 2, 2147483148, 0]).unwrap();
    let mut bytes = [0xEE; 50];
    write_slot(&mut bytes, 2, frame).unwrap();
    let head = [0x7D, 1, 1, 1, 0, 0, 0, 4, 0, 0, 0, 0, 0, 0, 0, 2, 0, 0, 0, 0, 0, 0, 0, 0x0C, 0xFE];
    assert_eq!(bytes[2..27], head);
    assert_eq!(bytes[27..], [&[0xFF, 0x7F, 0, 0, 0, 0][..], &[0; 17]].concat()[..]);
    assert_eq!(read_slot(&bytes, 2), Ok(frame));
    assert_eq!(read_slot(&bytes, 3), Err(2));
    assert_eq!(read_slot(&bytes, usize::MAX), Err(2));
    assert_eq!(write_slot(&mut bytes, usize::MAX - 3, frame), Err(2));
    let mut dice = Dice(1);
    for _ in 0..20_000 {
        let Some(frame) = dice.frame(7) else { continue };
        write_slot(&mut bytes, 1, frame).unwrap();
        assert_eq!(read_slot(&bytes, 1), Ok(frame));
        let (at, bit) = (1 + dice.below(48) as usize, dice.below(8));
        bytes[at] ^= 1 << bit;
        // Whatever else is read now, its own slot is these bytes.
        if let Ok(other) = read_slot(&bytes, 1) {
            let mut again = [0; 48];
            write_slot(&mut again, 0, other).unwrap();
            assert_eq!(again, bytes[1..49]);
            assert_eq!(Frame::new(other.fields()), Ok(other));
        }
    }
}
