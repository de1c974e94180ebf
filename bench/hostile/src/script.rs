//! A case in words: its steps as text, and as a script for the run program.

use crate::compare::Bench;
use crate::words::{code, groups, Setup, NAMES, RECORD};
use std::fmt::Write;

/// How many arguments each step reads.
const ARGUMENTS: [usize; 32] = [
    5, 1, 1, 1, 6, 4, 4, 4, 4, 3, 1, 3, 2, 1, 3, 5, 8, 5, 11, 5, 4, 5, 1, 1, 5, 4, 10, 11, 3, 3, 3,
    3,
];

fn numbers(words: &[u64]) -> String {
    words.iter().map(u64::to_string).collect::<Vec<String>>().join(" ")
}

/// One step on one line, the records that belong to it behind it.
pub fn text(group: &[u64]) -> String {
    let kind = usize::try_from(group[0]).unwrap_or(usize::MAX);
    let mut line = match NAMES.get(kind) {
        Some(name) => format!("{name} {}", numbers(&group[1..=ARGUMENTS[kind]])),
        None => format!("no such step: {}", numbers(&group[..RECORD])),
    };
    for record in group[RECORD..].chunks_exact(RECORD) {
        let _ = match (group[0], record[0]) {
            (code::PLAY, call @ 1..=10) => {
                let used = match call {
                    code::SUBMIT => 5,
                    code::PUSH | code::LOOK => 3,
                    code::SHIP | code::TAKE => 2,
                    _ => 1,
                };
                write!(line, "; {} {}", NAMES[call as usize], numbers(&record[1..=used]))
            }
            (code::PLAY, _) => write!(line, "; stop 0"),
            _ => write!(line, "; {}", numbers(&record[1..9])),
        };
    }
    line
}

/// The rack of the script: its sizes, and whether it was opened over the odd backplane.
#[derive(Clone, Copy)]
struct Known {
    cards: u64,
    places: u64,
    odd: bool,
}

fn arguments(setup: &Setup, known: Known) -> String {
    let store = match (known.odd, setup.store) {
        (true, _) => "room=1".into(),
        (false, 1) => "backplane=box".into(),
        (false, _) => format!("room={}", setup.room),
    };
    let machine = ["ledger", "board"][setup.machine as usize & 1];
    format!("cards={} places={} {store} machine={machine}", known.cards, known.places)
}

/// The arguments line and the lines of a script, which has one rack: the first that was opened. What it cannot say stands
/// behind `#`.
pub fn script(setup: &Setup, bench: &Bench) -> String {
    let mut text = String::new();
    let mut known: Option<Known> = None;
    let mut reopened = false;
    for (step, group) in groups(&bench.steps).enumerate() {
        let accepted = bench.told(step)[0].is_some_and(|(reply, _)| reply.first() == Some(&0));
        if group[0] == code::OPEN && accepted {
            if known.is_none() {
                let rack = Known { cards: group[1] & 255, places: group[2], odd: group[5] != 0 };
                text = format!("arguments: {}\n{text}", arguments(setup, rack));
                known = Some(rack);
                continue;
            }
            reopened = true;
        }
        lines(setup, known.filter(|_| !reopened), group, &mut text);
    }
    text
}

fn lines(setup: &Setup, known: Option<Known>, group: &[u64], out: &mut String) {
    let said = known.filter(|known| lent_right(*known, setup, group)).and_then(|_| {
        if group[0] == code::PLAY {
            let calls = group[RECORD..].chunks_exact(RECORD);
            return calls.map(|call| line(setup, call, true)).collect::<Option<Vec<String>>>();
        }
        line(setup, group, false).map(|line| vec![line])
    });
    match said {
        Some(all) => all.iter().for_each(|line| out.push_str(&format!("{line}\n"))),
        None => out.push_str(&format!("# {}\n", text(group))),
    }
}

/// Whether the step lends what the run program would.
fn lent_right(known: Known, setup: &Setup, group: &[u64]) -> bool {
    let elen = |lent: u64| lent.min(setup.entries() as u64) == known.cards * known.places;
    let mlen = |lent: u64| lent.min(setup.machines() as u64) == known.cards;
    let backplane = |which: u64| (which != 0) == known.odd;
    match group[0] {
        code::SUBMIT => elen(group[6]),
        code::SHIP | code::TAKE => elen(group[3]) && backplane(group[4]),
        code::PUSH | code::LOOK => backplane(group[4]),
        code::COMMIT => elen(group[2]) && mlen(group[3]),
        code::PLAY => {
            let calls = (group.len() / RECORD - 1) as u64;
            let replies = group[2].min(20) == calls;
            replies && elen(group[3]) && mlen(group[4]) && backplane(group[5])
        }
        code::TIMEOUT | code::ELECT | code::WIN | code::STOP | code::CARD => true,
        _ => false,
    }
}

fn line(setup: &Setup, record: &[u64], in_play: bool) -> Option<String> {
    let (card, second, third) = (record[1] & 255, record[2] & 255, record[3] & 255);
    Some(match record[0] {
        code::SUBMIT => {
            let words = (record[3], record[4], record[5]);
            format!("submit {card} {second} {}", payload(setup.machine, words)?)
        }
        code::SHIP | code::TAKE => format!("{} {card} {second}", NAMES[record[0] as usize]),
        code::PUSH | code::LOOK => format!("{} {card} {second} {third}", NAMES[record[0] as usize]),
        code::TIMEOUT..=code::STOP => format!("{} {card}", NAMES[record[0] as usize]),
        code::CARD if !in_play => format!("show {card}"),
        _ if in_play => "stop 0".into(),
        _ => return None,
    })
}

/// What a payload is made from; none where no payload packs to the words.
fn payload(machine: u64, (w1, w2, w3): (u64, u64, u64)) -> Option<String> {
    if machine == 0 {
        let fits = w1 < 32 && w2 < 1 << 32 && w3 == 0;
        return fits.then(|| format!("{w1} {}", w2 as i64 - (1 << 31)));
    }
    let fits = w1 < 64 && (1..=2).contains(&w2) && (1..=65535).contains(&w3);
    fits.then(|| format!("{w1} {w2} {w3}"))
}
