//! What the pages say and no stored script reaches: standing, diffs over longer logs, and the
//! refusals that need forged lanes or logs.

use twin::*;

struct Desk {
    rack: Rack,
    entries: Vec<Entry>,
    machines: Vec<Ledger>,
    plane: FrameBox,
}

impl Desk {
    fn new(places: usize) -> Desk {
        let entries = vec![Entry::new((0, 1, 1), 0, (0, 0, 0)).unwrap(); 3 * places];
        let (mut machines, plane) = (vec![Ledger::start(); 3], FrameBox::new());
        let rack = Rack::open(3, places, &entries, &mut machines, &plane).unwrap();
        Desk { rack, entries, machines, plane }
    }

    fn ask(&mut self, call: Call) -> Result<Answer, u8> {
        let mut replies = [Err(0)];
        let Desk { rack, entries, machines, plane } = self;
        play(rack, entries, machines, plane, &[call], &mut replies).unwrap();
        replies[0]
    }

    fn send(&mut self, from: u8, to: u8, number: u8, fields: [u64; 8]) {
        let frame = Frame::new(fields).unwrap();
        self.plane.send(Lane { from, to, number }, frame).unwrap();
    }

    fn carry(&mut self, from: u8, to: u8, kind: u8) {
        assert_eq!(self.ask(Call::Push(from, to, kind)), Ok(Answer::Done));
        assert_eq!(self.ask(Call::Look(to, from, kind)), Ok(Answer::Done));
    }

    /// Card `own` is elected by the vote of `peer`, which times out first if it has to.
    fn elect(&mut self, own: u8, peer: u8) -> Epoch {
        self.ask(Call::Timeout(peer)).unwrap();
        self.carry(peer, own, 5);
        self.ask(Call::Timeout(own)).unwrap();
        self.carry(own, peer, 5);
        assert_eq!(self.ask(Call::Elect(peer)), Ok(Answer::Number(2)));
        self.carry(peer, own, 5);
        self.rack.win(own).unwrap()
    }

    fn card(&self, card: u8) -> Card {
        self.rack.card(card).unwrap()
    }

    fn headers(&self, card: u8) -> Vec<Header> {
        self.rack.log(&self.entries, card).unwrap().iter().map(|entry| entry.header).collect()
    }
}

const POST: Words = (2, 2147483148, 0);

#[test]
fn a_diff_carries_older_entries_over() {
    let mut desk = Desk::new(4);
    let (round, leader) = desk.elect(1, 2);
    for count in 1..=3 {
        let placed = desk.ask(Call::Submit(1, 4, POST));
        assert_eq!(placed, Ok(Answer::Placed((round, leader, count))));
    }
    let second = desk.elect(1, 3);
    assert!(second > (round, leader));
    assert_eq!(desk.ask(Call::Ship(1, 2)), Ok(Answer::Number(4)));
    assert_eq!(desk.ask(Call::Take(2, 1)), Ok(Answer::Number(2)));
    let old = [(round, leader, 1), (round, leader, 2), (round, leader, 3)];
    assert_eq!(desk.headers(2), old);
    let start = (second.0, second.1, 0);
    let card = desk.card(2);
    assert_eq!((card.role, card.current, card.newest), (Role::Follower, second, second));
    assert_eq!((card.accepted, card.next, card.committed), (start, start, (0, 0, 0)));
    desk.carry(2, 1, 4);
    assert_eq!(desk.ask(Call::Commit(1)), Ok(Answer::Number(3)));
    assert_eq!(desk.card(1).committed, old[2]);
    assert_eq!(desk.ask(Call::Commit(1)), Err(6));
    let mut sums = Vec::new();
    desk.machines[0].dump(&mut sums);
    assert_eq!(sums[2] as i64, -1500);
    // Delivered in an earlier epoch: no commit row until something of this one is delivered.
    assert_eq!(desk.ask(Call::Push(1, 2, 6)), Err(6));
}

#[test]
fn a_card_that_accepted_more_stands_itself() {
    let mut desk = Desk::new(4);
    let first = desk.elect(1, 2);
    desk.ask(Call::Submit(1, 4, POST)).unwrap();
    desk.ask(Call::Timeout(3)).unwrap();
    desk.ask(Call::Timeout(1)).unwrap();
    desk.ask(Call::Timeout(3)).unwrap();
    desk.carry(3, 1, 5);
    // Its own vote has its accepted header, so that it stands only where a peer's larger vote has less.
    let vote = desk.card(3).vote;
    desk.ask(Call::Timeout(3)).unwrap();
    desk.carry(3, 1, 5);
    assert!(desk.card(3).vote > vote && desk.card(3).vote > desk.card(1).vote);
    assert_eq!(desk.ask(Call::Elect(1)), Ok(Answer::Number(1)));
    let card = desk.card(1);
    assert_eq!(card.vote, (card.newest, (first.0, first.1, 1)));
    assert!(card.newest > desk.card(3).newest);
}

#[test]
fn malformed_out_of_turn_and_full() {
    let mut desk = Desk::new(2);
    desk.send(1, 2, 0, [4, 0, 1, 1, 0, 0, 0, 0]);
    assert_eq!(desk.ask(Call::Take(2, 1)), Err(8));
    desk.plane.drop_first(Lane { from: 1, to: 2, number: 0 }, 1).unwrap();
    desk.send(1, 2, 0, [1, 0, 3, 1, 0, 0, 0, 0]);
    assert_eq!(desk.ask(Call::Take(2, 1)), Err(8));
    desk.plane.drop_first(Lane { from: 1, to: 2, number: 0 }, 1).unwrap();
    desk.send(1, 2, 0, [1, 0, 1, 1, 0, 0, 0, 0]);
    assert_eq!(desk.ask(Call::Take(2, 1)), Err(9));
    desk.plane.drop_first(Lane { from: 1, to: 2, number: 0 }, 1).unwrap();
    desk.send(1, 2, 0, [2, 5, 1, 0, 0, 0, 0, 3]);
    for count in 1..=3 {
        assert_eq!(desk.ask(Call::Take(2, 1)), Err(8));
        desk.send(1, 2, 0, [3, 4, 3, count, 0, 0, 0, 0]);
    }
    assert_eq!(desk.ask(Call::Take(2, 1)), Err(10));
    assert_eq!(desk.card(2).role, Role::Electing);
    desk.plane.drop_first(Lane { from: 1, to: 2, number: 0 }, 4).unwrap();
    desk.send(1, 2, 0, [2, 5, 1, 0, 0, 0, 0, 0]);
    assert_eq!(desk.ask(Call::Take(2, 1)), Ok(Answer::Number(2)));
    for count in 1..=3 {
        desk.send(1, 2, 0, [1, 5, 1, count, 0, 0, 0, 0]);
    }
    assert_eq!(desk.ask(Call::Take(2, 1)), Ok(Answer::Number(1)));
    assert_eq!(desk.ask(Call::Take(2, 1)), Ok(Answer::Number(1)));
    assert_eq!(desk.ask(Call::Take(2, 1)), Err(10));
    desk.send(2, 1, 4, [6, 0, 0, 0, 0, 0, 0, 0]);
    assert_eq!(desk.ask(Call::Look(1, 2, 4)), Err(8));
}

#[test]
fn rounds_and_counts_are_used_up() {
    let mut desk = Desk::new(2);
    let last = u64::from(u32::MAX);
    desk.send(2, 1, 5, [5, last, 2, 0, 0, 0, 0, 0]);
    desk.ask(Call::Look(1, 2, 5)).unwrap();
    assert_eq!(desk.ask(Call::Timeout(1)), Err(12));
    assert_eq!(desk.ask(Call::Elect(1)), Ok(Answer::Number(2)));
    assert_eq!(desk.card(1).newest, (u32::MAX, 2));
    assert_eq!(least_epoch(3, (u32::MAX, 2)), Ok((u32::MAX, 3)));
    assert_eq!(least_epoch(2, (u32::MAX, 2)), Err(12));
    assert_eq!(least_epoch(8, (0, 0)), Err(1));
    assert_eq!(least_epoch(8, (1, 0)), Err(8));
    assert_eq!(least_epoch(1, (0, 0)), Ok((0, 1)));
}

#[test]
fn machines_keep_their_ranges() {
    assert_eq!(Ledger::make((2, -500i64 as u64, 9)), Ok(POST));
    assert_eq!(Ledger::make((32, 0, 0)), Err(3));
    assert_eq!(Ledger::make((0, 1 << 31, 0)), Err(3));
    assert_eq!(Ledger::repack((2, 1 << 32, 0)), (0, 1 << 31, 0));
    assert_eq!(Board::make((63, 2, 65535)), Ok((63, 2, 65535)));
    assert_eq!(Board::make((63, 3, 1)), Err(3));
    assert_eq!(Board::repack((0, 1, 65536)), (0, 0, 0));
    let mut ledger = Ledger::start();
    for _ in 0..5000 {
        ledger.apply_words(0, (1, u64::from(u32::MAX), 0));
    }
    let mut sums = Vec::new();
    ledger.dump(&mut sums);
    let posting = i64::from(i32::MAX);
    assert_eq!(sums[1] as i64, 9_000_000_000_000 / posting * posting);
}
