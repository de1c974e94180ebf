//! Where things stand in a dump.

use crate::dump::{CARD_WORDS, LANES};
use crate::words::Setup;

pub struct Layout {
    /// The open rack's cards; 0 where none is open.
    pub cards: usize,
    /// Where each card's log begins: its length, then its entries.
    pub logs: Vec<usize>,
    pub machines: usize,
    pub lanes: usize,
}

impl Layout {
    /// None where the words are too few, as of a side that went wrong.
    pub fn of(dump: &[u64], setup: &Setup) -> Option<Layout> {
        let cards = if *dump.first()? == 1 { *dump.get(1)? as usize } else { 0 };
        let mut at = if cards == 0 { 1 } else { Layout::card(cards + 1) };
        let mut logs = Vec::with_capacity(cards.min(7));
        for _ in 0..cards {
            logs.push(at);
            at = at.checked_add(1)?.checked_add((*dump.get(at)? as usize).checked_mul(7)?)?;
        }
        let lanes = at + setup.machines() * setup.machine_words();
        (lanes + 2 < dump.len()).then_some(Layout { cards, logs, machines: at, lanes })
    }

    /// Where the words of a card of an open rack begin, by its number from 1.
    pub fn card(number: usize) -> usize {
        4 + (number - 1) * CARD_WORDS
    }
}

/// What a word of the dump means.
pub fn meaning(dump: &[u64], at: usize, setup: &Setup) -> String {
    let Some(layout) = Layout::of(dump, setup) else {
        return "a dump that cannot be read".into();
    };
    let named = ["whether a rack is open", "cards", "places", "tally"];
    let first_log = layout.logs.first().copied().unwrap_or(layout.machines);
    if at + 1 == dump.len() {
        "the hash of all entries' memory".into()
    } else if at + 2 == dump.len() {
        "whether the odd backplane is quiet".into()
    } else if at == 0 || (at < 4 && layout.cards > 0) {
        named[at].into()
    } else if at < first_log {
        let card = (at - 4) / CARD_WORDS;
        format!("card {}: {}", card + 1, card_word(at - Layout::card(card + 1)))
    } else if at < layout.machines {
        log_word(&layout, at)
    } else if at < layout.lanes {
        let (index, place) = split(at - layout.machines, setup.machine_words());
        let held = if setup.machine == 0 { "balance of carrier" } else { "holder of load" };
        format!("machines[{index}]: {held} {place}")
    } else {
        lane_word(dump, layout.lanes, at, setup.cards)
    }
}

fn split(at: usize, by: usize) -> (usize, usize) {
    (at / by, at % by)
}

/// A card's own words, then those of each peer's row.
const OWN: [&str; 20] = [
    "role",
    "stopped",
    "current round",
    "current leader",
    "newest round",
    "newest leader",
    "accepted round",
    "accepted leader",
    "accepted count",
    "committed round",
    "committed leader",
    "committed count",
    "next round",
    "next leader",
    "next count",
    "vote's epoch's round",
    "vote's epoch's leader",
    "vote's header's round",
    "vote's header's leader",
    "vote's header's count",
];
const ROW: [&str; 12] = [
    "shipped (0 nothing, else 1 + count)",
    "accept row's round",
    "accept row's leader",
    "accept row's count",
    "vote row's epoch's round",
    "vote row's epoch's leader",
    "vote row's header's round",
    "vote row's header's leader",
    "vote row's header's count",
    "commit row's round",
    "commit row's leader",
    "commit row's count",
];

fn card_word(at: usize) -> String {
    match OWN.get(at) {
        Some(name) => (*name).into(),
        None => {
            let (peer, word) = split(at - OWN.len(), ROW.len());
            format!("peer {}'s {}", peer + 1, ROW[word])
        }
    }
}

fn log_word(layout: &Layout, at: usize) -> String {
    const ENTRY: [&str; 7] = ["round", "leader", "count", "queue", "word 1", "word 2", "word 3"];
    let card = layout.logs.iter().rposition(|start| *start <= at).unwrap_or(0);
    match at - layout.logs[card] {
        0 => format!("card {}: length of its log", card + 1),
        inside => {
            let (place, word) = split(inside - 1, ENTRY.len());
            format!("card {}: entry {place} of its log: {}", card + 1, ENTRY[word])
        }
    }
}

fn lane_word(dump: &[u64], start: usize, at: usize, cards: u64) -> String {
    const FRAME: [&str; 8] = ["kind", "round", "leader", "count", "w1", "w2", "w3", "w4"];
    let mut next = start;
    for from in 1..=cards {
        for to in (1..=cards).filter(|to| *to != from) {
            for number in LANES {
                let lane = format!("lane {number} from {from} to {to}");
                let end = next + 1 + dump[next] as usize * FRAME.len();
                if at == next {
                    return format!("{lane}: how many wait");
                }
                if at < end {
                    let (place, word) = split(at - next - 1, FRAME.len());
                    return format!("{lane}: frame {place}: {}", FRAME[word]);
                }
                next = end;
                if next >= dump.len() {
                    return "lanes that cannot be read".into();
                }
            }
        }
    }
    "a word behind the lanes".into()
}
