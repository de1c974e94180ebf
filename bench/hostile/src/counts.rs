//! What was carried out and compared, and the tables of it.

use crate::layout::Layout;
use crate::words::{code, Setup, NAMES, NOT_CARRIED_OUT, RECORD};
use std::fmt::Write;

/// Statuses 0 to 12, then "not carried out".
const STATUSES: usize = 14;
const KINDS: usize = 33;

#[derive(Clone, Copy, Default)]
struct Sum {
    cases: u64,
    steps: u64,
    accepted: u64,
    refused: u64,
}

impl Sum {
    fn add(&mut self, other: &Sum) {
        self.cases += other.cases;
        self.steps += other.steps;
        self.accepted += other.accepted;
        self.refused += other.refused;
    }

    fn row(&self) -> String {
        let none = self.steps - self.accepted - self.refused;
        format!("{} | {} | {} | {} | {none}", self.cases, self.steps, self.accepted, self.refused)
    }
}

pub struct Counts {
    /// Sizes 3, 5, 7 × two backplanes × two machines.
    combinations: [Sum; 12],
    profiles: Vec<Sum>,
    steps: [[u64; STATUSES]; KINDS],
    calls: [[u64; STATUSES]; 11],
    /// What elect and take answered: 0, 1, 2; what ship and commit answered: 0, 1, more.
    answers: [[u64; 3]; 4],
    /// By how long logs were at the ends of cases: the longest; and the largest tally and round.
    longest: [u64; 3],
}

const ANSWERING: [u64; 4] = [code::ELECT, code::TAKE, code::SHIP, code::COMMIT];

fn column(status: u64) -> usize {
    status.min(STATUSES as u64 - 1) as usize
}

impl Counts {
    pub fn new(profiles: usize) -> Counts {
        Counts {
            combinations: [Sum::default(); 12],
            profiles: vec![Sum::default(); profiles],
            steps: [[0; STATUSES]; KINDS],
            calls: [[0; STATUSES]; 11],
            answers: [[0; 3]; 4],
            longest: [0; 3],
        }
    }

    /// A step that was carried out by both and compared.
    pub fn step(&mut self, group: &[u64], reply: &[u64]) {
        let kind = group[0].min(KINDS as u64 - 1) as usize;
        self.steps[kind][column(reply[0])] += 1;
        if reply[0] == 0 {
            self.answered(group[0], reply.get(1));
        }
        if group[0] == code::PLAY && reply[0] == 0 {
            self.played(group, reply);
        }
    }

    fn played(&mut self, group: &[u64], reply: &[u64]) {
        let records = group[RECORD..].chunks_exact(RECORD);
        for (record, answer) in records.zip(reply[1..].chunks_exact(4)) {
            let call = if (1..=10).contains(&record[0]) { record[0] } else { code::STOP };
            self.calls[call as usize][column(answer[0])] += 1;
            if answer[0] == 0 {
                self.answered(call, answer.get(1));
            }
        }
    }

    fn answered(&mut self, call: u64, word: Option<&u64>) {
        let Some(row) = ANSWERING.iter().position(|answering| *answering == call) else { return };
        if let Some(number) = word {
            self.answers[row][(*number).min(2) as usize] += 1;
        }
    }

    /// A whole case without a difference; `dump` is its last.
    pub fn case(&mut self, setup: &Setup, profile: usize, sums: [u64; 3], dump: &[u64]) {
        let [steps, accepted, refused] = sums;
        let sum = Sum { cases: 1, steps, accepted, refused };
        let size = (setup.cards as usize - 3) / 2;
        self.combinations[size * 4 + setup.store as usize * 2 + setup.machine as usize].add(&sum);
        self.profiles[profile].add(&sum);
        let Some(layout) = Layout::of(dump, setup) else { return };
        let logs = layout.logs.iter().map(|at| dump[*at]).max();
        let rounds = (1..=layout.cards).map(|card| dump[Layout::card(card) + 4]).max();
        let tally = if layout.cards > 0 { dump[3] } else { 0 };
        for (most, seen) in self.longest.iter_mut().zip([logs, Some(tally), rounds]) {
            *most = (*most).max(seen.unwrap_or(0));
        }
    }

    pub fn add(&mut self, other: &Counts) {
        let sums = self.combinations.iter_mut().chain(&mut self.profiles);
        sums.zip(other.combinations.iter().chain(&other.profiles)).for_each(|(a, b)| a.add(b));
        let rows = self.steps.iter_mut().chain(&mut self.calls).flatten();
        let others = other.steps.iter().chain(&other.calls).flatten();
        rows.zip(others).for_each(|(a, b)| *a += b);
        let answers = self.answers.iter_mut().flatten();
        answers.zip(other.answers.iter().flatten()).for_each(|(a, b)| *a += b);
        self.longest.iter_mut().zip(other.longest).for_each(|(a, b)| *a = (*a).max(b));
    }

    pub fn tables(&self, profiles: &[&str]) -> String {
        let mut text = String::new();
        let heads = "cases | steps | accepted | refused | not carried out";
        let _ = writeln!(text, "| cards | backplane | machine | {heads} |\n{}", line(8));
        let mut all = Sum::default();
        for (index, sum) in self.combinations.iter().enumerate().filter(|(_, sum)| sum.cases > 0) {
            let store = ["rings", "box"][index / 2 % 2];
            let machine = ["ledger", "board"][index % 2];
            let _ =
                writeln!(text, "| {} | {store} | {machine} | {} |", index / 4 * 2 + 3, sum.row());
            all.add(sum);
        }
        let _ = writeln!(text, "| all | | | {} |\n", all.row());
        let _ = writeln!(text, "| profile | {heads} |\n{}", line(6));
        for (name, sum) in profiles.iter().zip(&self.profiles) {
            let _ = writeln!(text, "| {name} | {} |", sum.row());
        }
        self.statuses(&mut text);
        self.answers_table(&mut text);
        text
    }

    fn statuses(&self, text: &mut String) {
        let numbers: Vec<String> = (0..13).map(|number| number.to_string()).collect();
        let heads = numbers.join(" | ");
        let _ = writeln!(text, "\n| step | {heads} | {NOT_CARRIED_OUT} |\n{}", line(15));
        for (kind, row) in self.steps.iter().enumerate() {
            let name = NAMES.get(kind).unwrap_or(&"no such step");
            let _ = writeln!(text, "| {name} | {} |", cells(row));
        }
        let _ = writeln!(text, "\n| call within a play | {heads} |\n{}", line(14));
        for (call, row) in self.calls.iter().enumerate().skip(1) {
            let _ = writeln!(text, "| {} | {} |", NAMES[call], cells(&row[..13]));
        }
        let calls: u64 = self.calls.iter().flatten().sum();
        let accepted: u64 = self.calls.iter().map(|row| row[0]).sum();
        let _ = writeln!(text, "\ncalls within plays, in addition: {calls}, accepted: {accepted}");
    }

    fn answers_table(&self, text: &mut String) {
        let _ = writeln!(text, "\n| answers | 0 | 1 | 2 (ship, commit: or more) |\n{}", line(4));
        for (call, row) in ANSWERING.iter().zip(&self.answers) {
            let _ = writeln!(text, "| {} | {} |", NAMES[*call as usize], cells(row));
        }
        let [log, tally, round] = self.longest;
        let _ = writeln!(
            text,
            "\nat the ends of cases: longest log {log}, tally {tally}, round {round}"
        );
    }
}

fn line(columns: usize) -> String {
    "|---".repeat(columns) + "|"
}

fn cells(row: &[u64]) -> String {
    let cell = |count: &u64| if *count == 0 { "·".into() } else { count.to_string() };
    row.iter().map(cell).collect::<Vec<String>>().join(" | ")
}
