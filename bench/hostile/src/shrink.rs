//! Makes a differing case small: what it can do without is left out.

use crate::compare::{Bench, Spot};
use crate::words::{code, groups, Setup, RECORD};

/// A play with more runs than this has been shrunk enough.
const RUNS: usize = 6000;

struct Shrinking<'b> {
    bench: &'b mut Bench,
    setup: Setup,
    /// The steps that still differ, each with its records.
    kept: Vec<Vec<u64>>,
    runs: usize,
}

/// The smallest steps that were found; the bench holds both sides' words for them.
pub fn shrink(bench: &mut Bench, setup: Setup, spot: Spot) -> (Vec<u64>, Spot) {
    let kept: Vec<Vec<u64>> = groups(&bench.steps).map(<[u64]>::to_vec).collect();
    let mut shrinking = Shrinking { bench, setup, kept, runs: 0 };
    shrinking.kept.truncate(spot.step + 1);
    shrinking.halves();
    while shrinking.ones() || shrinking.plays() || shrinking.pairs() {}
    let Shrinking { bench, kept, .. } = shrinking;
    let steps = kept.concat();
    let spot = bench.replay(setup, &steps).unwrap_or(spot);
    (steps, spot)
}

impl Shrinking<'_> {
    /// Keeps the steps if they differ, up to where they do.
    fn keep(&mut self, mut steps: Vec<Vec<u64>>) -> bool {
        self.runs += 1;
        if self.runs > RUNS {
            return false;
        }
        match self.bench.replay(self.setup, &steps.concat()) {
            Some(spot) => {
                steps.truncate(spot.step + 1);
                self.kept = steps;
                true
            }
            None => false,
        }
    }

    fn without(&mut self, start: usize, count: usize) -> bool {
        let end = (start + count).min(self.kept.len());
        let steps = [&self.kept[..start], &self.kept[end..]].concat();
        self.keep(steps)
    }

    fn halves(&mut self) {
        let mut count = self.kept.len() / 2;
        while count > 1 {
            self.pass(count);
            count /= 2;
        }
    }

    fn ones(&mut self) -> bool {
        self.pass(1)
    }

    fn pass(&mut self, count: usize) -> bool {
        let (mut at, mut fewer) = (0, false);
        while at < self.kept.len() {
            if self.without(at, count) {
                fewer = true;
            } else {
                at += count;
            }
        }
        fewer
    }

    /// A row that is pushed and looked at goes only as a whole: two steps at once.
    fn pairs(&mut self) -> bool {
        let (mut first, mut fewer) = (0, false);
        while first < self.kept.len() {
            let end = (first + 12).min(self.kept.len());
            let gone = (first + 1..end).any(|second| self.without_pair(first, second));
            fewer |= gone;
            first += usize::from(!gone);
        }
        fewer
    }

    fn without_pair(&mut self, first: usize, second: usize) -> bool {
        let numbered = self.kept.iter().enumerate();
        let left = numbered.filter(|(step, _)| *step != first && *step != second);
        let steps = left.map(|(_, group)| group.clone()).collect();
        self.keep(steps)
    }

    /// Plays lose calls one by one, and lists of frames lose frames.
    fn plays(&mut self) -> bool {
        let mut fewer = false;
        for step in 0..self.kept.len() {
            let mut place = 1;
            while step < self.kept.len() && (place + 1) * RECORD <= self.kept[step].len() {
                if self.without_record(step, place) {
                    fewer = true;
                } else {
                    place += 1;
                }
            }
        }
        fewer
    }

    fn without_record(&mut self, step: usize, place: usize) -> bool {
        let mut steps = self.kept.clone();
        let group = &mut steps[step];
        group.drain(place * RECORD..(place + 1) * RECORD);
        match group[0] {
            code::PLAY => {
                let right = group[1] == group[2];
                group[1] = group.len() as u64 / RECORD as u64 - 1;
                if right {
                    group[2] = group[1];
                }
            }
            _ => group[4] = group.len() as u64 / RECORD as u64 - 1,
        }
        self.keep(steps)
    }
}
