//! Plays stored scripts on the twin, and compares what it prints with what is stored.
//!
//! Arguments are paths of stored scripts. Ends with status 1 where any of them differs.

use std::fmt::Write;
use std::process::ExitCode;

use twin::{
    bytes_for, play, Answer, Backplane, Board, Call, Card, Entry, Epoch, FrameBox, Header, Ledger,
    Machine, PeerRow, Rack, Rings, Role, Words,
};

const FORMS: &str = "a line is timeout, elect, win, commit, stop or show CARD; ship or take CARD \
                     PEER; push or look CARD PEER KIND; or submit CARD QUEUE";
const OUT_OF_RANGE: u8 = 3;

/// The texts that depend on the machine.
trait Texts: Machine {
    /// The names of a submit's numbers behind the queue.
    const FORM: &'static str;
    const NUMBERS: usize;
    fn numbers(given: &[i128]) -> Option<(u64, u64, u64)>;
    fn payload(words: Words) -> String;
    fn state(&self) -> String;
}

impl Texts for Ledger {
    const FORM: &'static str = "CARRIER CENTS";
    const NUMBERS: usize = 2;

    fn numbers(given: &[i128]) -> Option<(u64, u64, u64)> {
        let cents = i64::try_from(given[1]).ok()?;
        Some((u64::try_from(given[0]).ok()?, cents as u64, 0))
    }

    fn payload(words: Words) -> String {
        let (carrier, shifted, _) = Ledger::repack(words);
        format!("post {} cents to carrier {carrier}", i128::from(shifted) - (1 << 31))
    }

    fn state(&self) -> String {
        let shown = |at: usize, cents: u64| format!(" carrier {at} at {} cents", cents as i64);
        listed(self, "ledger", "every balance is 0", shown)
    }
}

impl Texts for Board {
    const FORM: &'static str = "LOAD ACT CARRIER";
    const NUMBERS: usize = 3;

    fn numbers(given: &[i128]) -> Option<(u64, u64, u64)> {
        let number = |at: usize| u64::try_from(given[at]).ok();
        Some((number(0)?, number(1)?, number(2)?))
    }

    fn payload(words: Words) -> String {
        match Board::repack(words) {
            (load, 1, carrier) => format!("book load {load} for carrier {carrier}"),
            (load, 2, carrier) => format!("release load {load} by carrier {carrier}"),
            _ => "blank".to_string(),
        }
    }

    fn state(&self) -> String {
        let shown = |at: usize, carrier: u64| format!(" load {at} held by carrier {carrier}");
        listed(self, "board", "every load is open", shown)
    }
}

/// What stands in a machine apart from zeros.
fn listed<M: Machine>(
    machine: &M,
    name: &str,
    at_start: &str,
    shown: impl Fn(usize, u64) -> String,
) -> String {
    let mut numbers = Vec::new();
    machine.dump(&mut numbers);
    let standing = numbers.iter().enumerate().filter(|(_, number)| **number != 0);
    let list: String = standing.map(|(at, number)| shown(at, *number)).collect();
    if list.is_empty() {
        format!("{name}: {at_start}")
    } else {
        format!("{name}:{list}")
    }
}

fn epoch((round, leader): Epoch) -> String {
    format!("{round}.{leader}")
}

fn header((round, leader, count): Header) -> String {
    format!("{round}.{leader}.{count}")
}

/// A decimal number of any size, held within what no field holds.
fn number(word: &str) -> Option<i128> {
    let digits = word.strip_prefix('-').unwrap_or(word);
    if digits.is_empty() || !digits.bytes().all(|byte| byte.is_ascii_digit()) {
        return None;
    }
    let size = digits
        .bytes()
        .fold(0i128, |sum, byte| sum.saturating_mul(10).saturating_add(i128::from(byte - b'0')));
    Some(if digits.len() == word.len() { size } else { -size })
}

/// A card's, queue's or kind's number; 255 is none's, as all that does not fit.
fn small(number: i128) -> u8 {
    u8::try_from(number).unwrap_or(u8::MAX)
}

/// What a line asks for.
enum Asked {
    Call(Call),
    Show(u8),
    /// A submit whose payload cannot be made.
    Unmade(u8),
}

fn parse<M: Texts>(line: &str) -> Option<Asked> {
    let mut words = line.split_ascii_whitespace();
    let name = words.next()?;
    let given = words.map(number).collect::<Option<Vec<i128>>>()?;
    let at = |place: usize| small(given[place]);
    let call = match (name, given.len()) {
        ("timeout", 1) => Call::Timeout(at(0)),
        ("elect", 1) => Call::Elect(at(0)),
        ("win", 1) => Call::Win(at(0)),
        ("commit", 1) => Call::Commit(at(0)),
        ("stop", 1) => Call::Stop(at(0)),
        ("ship", 2) => Call::Ship(at(0), at(1)),
        ("take", 2) => Call::Take(at(0), at(1)),
        ("push", 3) => Call::Push(at(0), at(1), at(2)),
        ("look", 3) => Call::Look(at(0), at(1), at(2)),
        ("show", 1) => return Some(Asked::Show(at(0))),
        ("submit", count) if count == 2 + M::NUMBERS => {
            match M::numbers(&given[2..]).and_then(|numbers| M::make(numbers).ok()) {
                Some(payload) => Call::Submit(at(0), at(1), payload),
                None => return Some(Asked::Unmade(at(0))),
            }
        }
        _ => return None,
    };
    Some(Asked::Call(call))
}

/// A rack and all that is lent to it.
struct Session<B, M> {
    cards: u8,
    places: usize,
    rack: Rack,
    entries: Vec<Entry>,
    machines: Vec<M>,
    backplane: B,
}

impl<B: Backplane, M: Texts> Session<B, M> {
    fn open(cards: u8, places: usize, backplane: B) -> Result<Session<B, M>, u8> {
        let entries = vec![Entry::new((0, 1, 1), 0, (0, 0, 0))?; usize::from(cards) * places];
        let mut machines = vec![M::start(); usize::from(cards)];
        let rack = Rack::open(cards, places, &entries, &mut machines, &backplane)?;
        Ok(Session { cards, places, rack, entries, machines, backplane })
    }

    fn answer(&mut self, call: Call) -> Result<Answer, u8> {
        let mut replies = [Err(0)];
        let Session { rack, entries, machines, backplane, .. } = self;
        play(rack, entries, machines, backplane, &[call], &mut replies)?;
        replies[0]
    }

    fn line(&mut self, line: &str) -> String {
        let reply = match parse::<M>(line) {
            None => return format!("not a call: {line} ({FORMS} {})\n", M::FORM),
            Some(Asked::Show(card)) => return self.show(card).unwrap_or_else(refused),
            Some(Asked::Unmade(card)) => self.rack.card(card).and(Err(OUT_OF_RANGE)),
            Some(Asked::Call(call)) => self.answer(call),
        };
        match reply {
            Err(refusal) => refused(refusal),
            Ok(Answer::Epoch((round, leader))) => format!("ok {round} {leader}\n"),
            Ok(Answer::Number(number)) => format!("ok {number}\n"),
            Ok(Answer::Placed((round, leader, count))) => format!("ok {round} {leader} {count}\n"),
            Ok(Answer::Done) => "ok\n".to_string(),
        }
    }

    fn show(&self, number: u8) -> Result<String, u8> {
        let card = self.rack.card(number)?;
        let log = self.rack.log(&self.entries, number)?;
        let mut out = marks(number, &card);
        let peers = (1..=self.cards).zip(&card.peers).filter(|(peer, _)| *peer != number);
        peers.for_each(|(peer, row)| out += &peer_line(peer, row));
        out += &format!("  log: {} of {} places\n", log.len(), self.places);
        for entry in log {
            let (at, payload) = (header(entry.header), M::payload(entry.payload));
            out += &format!("    {at} queue {}: {payload}\n", entry.queue);
        }
        out += &format!("  {}\n", self.machines[usize::from(number) - 1].state());
        Ok(out)
    }

    /// The headers of what each card has delivered.
    fn readings(&self) -> Result<String, u8> {
        let mut out = String::new();
        let mut list = self.entries.clone();
        for card in 1..=self.cards {
            let count = self.rack.reading(&self.entries, card, &mut list)?;
            out += &format!("card {card}");
            list[..count].iter().for_each(|entry| out += &format!(" {}", header(entry.header)));
            out.push('\n');
        }
        Ok(out)
    }

    fn run(mut self, lines: &str) -> Result<String, u8> {
        let mut out = String::new();
        for line in lines.lines() {
            out += &self.line(line);
        }
        Ok(out + &self.readings()?)
    }
}

fn refused(refusal: u8) -> String {
    format!("no {refusal}\n")
}

fn marks(number: u8, card: &Card) -> String {
    let role = match card.role {
        Role::Electing => "electing",
        Role::Leader => "leader",
        Role::Follower => "follower",
    };
    let stopped = if card.stopped { ", stopped" } else { "" };
    let mut out = format!("card {number}: {role}{stopped}\n");
    let (current, newest) = (epoch(card.current), epoch(card.newest));
    let (voted, with) = (epoch(card.vote.0), header(card.vote.1));
    let _ = writeln!(out, "  epoch {current}, new epoch {newest}, vote {voted} with {with}");
    let (accepted, committed) = (header(card.accepted), header(card.committed));
    let next = header(card.next);
    let _ = writeln!(out, "  accepted {accepted}, committed {committed}, next {next}");
    out
}

fn peer_line(peer: u8, row: &PeerRow) -> String {
    let shipped = match row.shipped {
        None => "nothing shipped".to_string(),
        Some(0) => "shipped the diff".to_string(),
        Some(count) => format!("shipped up to {count}"),
    };
    let (accept, commit) = (header(row.accept), header(row.commit));
    let (voted, with) = (epoch(row.vote.0), header(row.vote.1));
    format!(
        "  peer {peer}: {shipped}; accept {accept}, vote {voted} with {with}, commit {commit}\n"
    )
}

/// Which rack a script names.
struct Setup {
    cards: u8,
    places: usize,
    room: usize,
    boxed: bool,
    board: bool,
}

fn setup(arguments: &str) -> Option<Setup> {
    let mut setup = Setup { cards: 3, places: 16, room: 20, boxed: false, board: false };
    for argument in arguments.split_ascii_whitespace() {
        match argument.split_once('=')? {
            ("cards", number) => setup.cards = number.parse().ok()?,
            ("places", number) => setup.places = number.parse().ok()?,
            ("room", number) => setup.room = number.parse().ok()?,
            ("backplane", name) => setup.boxed = name == "box",
            ("machine", name) => setup.board = name == "board",
            _ => return None,
        }
    }
    Some(setup)
}

fn run_over<M: Texts>(setup: &Setup, lines: &str) -> Result<String, u8> {
    if setup.boxed {
        return Session::<_, M>::open(setup.cards, setup.places, FrameBox::new())?.run(lines);
    }
    // What the bytes hold at first is free, so they are not zeros here.
    let mut bytes = vec![0xA5; bytes_for(setup.cards, setup.room)?];
    let rings = Rings::over(&mut bytes, setup.cards, setup.room)?;
    Session::<_, M>::open(setup.cards, setup.places, rings)?.run(lines)
}

/// The text of one constant of a stored script; none of them holds a quote or an escape.
fn constant<'a>(script: &'a str, name: &str) -> Option<&'a str> {
    let (_, rest) = script.split_once(&format!("{name}: \""))?;
    rest.split_once('"').map(|(text, _)| text)
}

/// Plays one script; the fault is a text that tells where it differs.
fn check(path: &str) -> Result<(), String> {
    let script = std::fs::read_to_string(path).map_err(|fault| fault.to_string())?;
    let text = |name: &str| constant(&script, name).ok_or(format!("no constant {name}"));
    let (rack, lines, prints) = (text("rack")?, text("lines")?, text("prints")?);
    let setup = setup(rack).ok_or(format!("no rack: {rack}"))?;
    let run = if setup.board { run_over::<Board> } else { run_over::<Ledger> };
    let printed = run(&setup, lines).map_err(|refusal| format!("refused by {refusal}"))?;
    if printed == prints {
        return Ok(());
    }
    let same = printed.lines().zip(prints.lines()).take_while(|(ours, stored)| ours == stored);
    let at = same.count();
    let nth = |text: &str| text.lines().nth(at).unwrap_or("(the end)").to_string();
    Err(format!("line {}: printed {:?}, stored {:?}", at + 1, nth(&printed), nth(prints)))
}

fn main() -> ExitCode {
    let paths: Vec<String> = std::env::args().skip(1).collect();
    let mut agreeing = 0;
    for path in &paths {
        match check(path) {
            Ok(()) => agreeing += 1,
            Err(fault) => println!("{path}: {fault}"),
        }
    }
    println!("{agreeing} of {} scripts agree", paths.len());
    if agreeing == paths.len() {
        ExitCode::SUCCESS
    } else {
        ExitCode::FAILURE
    }
}
