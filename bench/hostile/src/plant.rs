//! Small faults, planted into the twin's words, to see that the harness finds them.

use crate::layout::Layout;
use crate::words::{code, groups, Setup, RECORD};

pub const PLANTS: [&str; 9] = [
    "none",
    "a follower that has delivered two of an epoch: its refused commit is told as accepted",
    "take of a diff is told as a message's where the log keeps two entries or more",
    "next's count is one more for a card that has committed count 3 or more",
    "the tally is one more at each fifth submit",
    "card 1's first balance or load is one more after three submits, where it is not 0",
    "a take that is refused by 10 changes the entries' memory",
    "the third frame of a lane has another last word",
    "within a play, 9 is told as 8",
];

/// A step's words, to be changed.
struct Told<'t> {
    group: &'t [u64],
    setup: &'t Setup,
    reply: &'t mut [u64],
    dump: &'t mut [u64],
}

/// The same steps always give the same changes, so that a shrunk case keeps its fault.
pub fn alter(plant: u64, setup: &Setup, steps: &[u64], twin: &mut [u64]) {
    if plant == 0 {
        return;
    }
    let mut rest = twin;
    for group in groups(steps) {
        let (reply, behind) = split(rest);
        let (dump, behind) = split(behind);
        rest = behind;
        let mut told = Told { group, setup, reply, dump };
        match plant {
            1 => dropped_refusal(&mut told),
            2 => wrong_answer(&mut told),
            3 => next_count(&mut told),
            4 => tally(&mut told),
            5 => machine(&mut told),
            6 => memory(&mut told),
            7 => third_frame(&mut told),
            _ => inner_refusal(&mut told),
        }
    }
}

fn split(words: &mut [u64]) -> (&mut [u64], &mut [u64]) {
    let count = words[0] as usize;
    words[1..].split_at_mut(count)
}

/// Where the words of a card that the step names stand.
fn own_card(told: &Told) -> Option<usize> {
    let card = usize::from(told.group[1] as u8);
    let known = told.dump[0] == 1 && (1..=told.dump[1] as usize).contains(&card);
    known.then(|| Layout::card(card))
}

fn dropped_refusal(told: &mut Told) {
    let Some(card) = own_card(told) else { return };
    let deep = told.dump[card] == 2 && told.dump[card + 11] >= 2;
    if told.group[0] == code::COMMIT && told.reply[0] == 6 && deep {
        told.reply[0] = 0;
    }
}

fn wrong_answer(told: &mut Told) {
    let diff = told.group[0] == code::TAKE && told.reply[0] == 0 && told.reply[1] == 2;
    if !diff {
        return;
    }
    let card = usize::from(told.group[1] as u8);
    let log =
        Layout::of(told.dump, told.setup).map_or(0, |layout| told.dump[layout.logs[card - 1]]);
    if log >= 2 {
        told.reply[1] = 1;
    }
}

fn next_count(told: &mut Told) {
    if told.dump[0] == 0 {
        return;
    }
    for card in (1..=told.dump[1] as usize).map(Layout::card) {
        if told.dump[card + 11] >= 3 {
            told.dump[card + 14] += 1;
        }
    }
}

fn tally(told: &mut Told) {
    if told.dump[0] == 1 && told.dump[3] > 0 && told.dump[3].is_multiple_of(5) {
        told.dump[3] += 1;
    }
}

fn machine(told: &mut Told) {
    if told.dump[0] == 0 || told.dump[3] < 3 {
        return;
    }
    if let Some(layout) = Layout::of(told.dump, told.setup) {
        let word = &mut told.dump[layout.machines];
        *word = word.wrapping_add(u64::from(*word != 0));
    }
}

fn memory(told: &mut Told) {
    if told.group[0] == code::TAKE && told.reply[0] == 10 {
        let last = told.dump.len() - 1;
        told.dump[last] ^= 1;
    }
}

fn third_frame(told: &mut Told) {
    let Some(layout) = Layout::of(told.dump, told.setup) else { return };
    let mut at = layout.lanes;
    let lanes = told.setup.cards * (told.setup.cards - 1) * 4;
    for _ in 0..lanes {
        let waiting = told.dump[at] as usize;
        if waiting >= 3 {
            told.dump[at + 24] ^= 1;
        }
        at += 1 + 8 * waiting;
    }
}

fn inner_refusal(told: &mut Told) {
    if told.group[0] != code::PLAY || told.reply[0] != 0 {
        return;
    }
    let calls = (told.group.len() - RECORD) / RECORD;
    for answer in told.reply[1..].chunks_exact_mut(4).take(calls) {
        if answer[0] == 9 {
            answer[0] = 8;
        }
    }
}
