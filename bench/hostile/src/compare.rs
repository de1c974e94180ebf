//! Runs both sides and compares every reply and every dump, word by word.

use crate::counts::Counts;
use crate::link;
use crate::plan::{plan, Plan};
use crate::plant;
use crate::rng::Rng;
use crate::session::{with_session, Session, Straight, Visit};
use crate::steps::Generator;
use crate::words::{groups, Setup};
use std::panic::AssertUnwindSafe;
use twin::{Backplane, Machine};

#[derive(Clone, Copy, PartialEq, Eq, Debug)]
pub enum Part {
    Reply,
    Dump,
    /// A refused step that left other entries on this side than there were.
    TwinMemory,
    LinkMemory,
    /// One side's words end too soon, or there are none.
    Length,
}

/// Where the two sides differ first.
#[derive(Clone, Copy, Debug)]
pub struct Spot {
    pub step: usize,
    pub part: Part,
    /// The first differing word of that part.
    pub at: usize,
}

/// One thread's memory, used again for every case.
#[derive(Default)]
pub struct Bench {
    plant: u64,
    pub steps: Vec<u64>,
    twin: Vec<u64>,
    link: Vec<u64>,
    /// How many words of `link` are the library's.
    written: usize,
    bytes: [Vec<u8>; 2],
}

struct Making<'m>(Generator, usize, &'m mut Vec<u64>, &'m mut Vec<u64>);

impl Visit for Making<'_> {
    fn visit<B: Backplane, M: Machine>(&mut self, mut session: Session<'_, B, M>) {
        for _ in 0..self.1 {
            let (start, told) = (self.2.len(), self.3.len());
            self.0.next(&session, self.2);
            session.step(&self.2[start..], self.3);
            self.0.saw(&self.2[start..], self.3[told + 1]);
        }
    }
}

impl Bench {
    pub fn planted(plant: u64) -> Bench {
        Bench { plant, ..Bench::default() }
    }

    /// Makes a case's steps while the twin carries them out, then compares.
    pub fn case(&mut self, seed: u64, case: u64, counts: &mut Counts) -> (Plan, Option<Spot>) {
        let mut rng = Rng::of_case(seed, case);
        let plan = plan(&mut rng);
        let generator = Generator::new(rng, &plan);
        self.steps.clear();
        self.twin.clear();
        let mut making = Making(generator, plan.steps, &mut self.steps, &mut self.twin);
        guarded(plan.setup, &mut self.bytes, &mut making);
        plant::alter(self.plant, &plan.setup, &self.steps, &mut self.twin);
        let written = link::session(plan.setup, &self.steps, &mut self.link, self.twin.len());
        let spot = self.compare(written, Some((&plan, counts)));
        (plan, spot)
    }

    /// The same for steps that there are already; `self.steps` becomes them.
    pub fn replay(&mut self, setup: Setup, steps: &[u64]) -> Option<Spot> {
        self.steps.clear();
        self.steps.extend_from_slice(steps);
        self.twin.clear();
        guarded(setup, &mut self.bytes, &mut Straight(steps, &mut self.twin));
        plant::alter(self.plant, &setup, steps, &mut self.twin);
        let written = link::session(setup, steps, &mut self.link, self.twin.len());
        self.compare(written, None)
    }

    fn compare(
        &mut self,
        written: Option<usize>,
        counted: Option<(&Plan, &mut Counts)>,
    ) -> Option<Spot> {
        self.written = written.unwrap_or(0);
        compare(&self.steps, &self.twin, &self.link[..self.written], counted)
    }

    /// Both sides' reply and dump of a step, where there are any.
    pub fn told(&self, step: usize) -> [Option<(&[u64], &[u64])>; 2] {
        [&self.twin[..], &self.link[..self.written]].map(|mut words| {
            for _ in 0..2 * step {
                part(&mut words)?;
            }
            Some((part(&mut words)?, part(&mut words)?))
        })
    }
}

/// A twin that falls is a difference too: its words end with the step before.
fn guarded(setup: Setup, bytes: &mut [Vec<u8>; 2], visit: &mut impl Visit) {
    let carried_out = AssertUnwindSafe(|| with_session(setup, bytes, visit));
    // The words that there are tell where it fell; the message has been printed.
    let _ = std::panic::catch_unwind(carried_out);
}

/// The part in front: a count and so many words.
fn part<'a>(rest: &mut &'a [u64]) -> Option<&'a [u64]> {
    let count = usize::try_from(*rest.first()?).ok()?;
    let words = rest.get(1..count.checked_add(1)?)?;
    *rest = &rest[count + 1..];
    Some(words)
}

fn first_other(one: &[u64], other: &[u64]) -> Option<usize> {
    if one == other {
        return None;
    }
    let same = one.iter().zip(other).take_while(|(a, b)| a == b).count();
    Some(same)
}

fn compare(
    steps: &[u64],
    mut twin: &[u64],
    mut link: &[u64],
    mut counted: Option<(&Plan, &mut Counts)>,
) -> Option<Spot> {
    let mut memory = [None, None];
    let mut sums = [0; 3];
    let mut last: &[u64] = &[];
    for (step, group) in groups(steps).enumerate() {
        let parts = (part(&mut twin), part(&mut twin), part(&mut link), part(&mut link));
        let (Some(reply), Some(dump), Some(other), Some(others)) = parts else {
            return Some(Spot { step, part: Part::Length, at: 0 });
        };
        if let Some((part, at)) = step_differs(reply, dump, other, others, &mut memory) {
            return Some(Spot { step, part, at });
        }
        sums[0] += 1;
        sums[1] += u64::from(reply[0] == 0);
        sums[2] += u64::from((1..=12).contains(&reply[0]));
        last = dump;
        if let Some((_, counts)) = counted.as_mut() {
            counts.step(group, reply);
        }
    }
    if let Some((plan, counts)) = counted {
        counts.case(&plan.setup, plan.profile, sums, last);
    }
    let ended = twin.is_empty() && link.is_empty();
    (!ended).then_some(Spot { step: sums[0] as usize, part: Part::Length, at: 0 })
}

fn step_differs(
    reply: &[u64],
    dump: &[u64],
    other: &[u64],
    others: &[u64],
    memory: &mut [Option<u64>; 2],
) -> Option<(Part, usize)> {
    if let Some(at) = first_other(reply, other) {
        return Some((Part::Reply, at));
    }
    let (Some((own, seen)), Some((its, shown))) = (dump.split_last(), others.split_last()) else {
        return Some((Part::Dump, 0));
    };
    if let Some(at) = first_other(seen, shown) {
        return Some((Part::Dump, at));
    }
    // Places that no log uses are free, so each side's memory is only held against its own.
    let before = std::mem::replace(memory, [Some(*own), Some(*its)]);
    let refused = reply.first().is_some_and(|status| (1..=12).contains(status));
    if refused && before[0].is_some_and(|hash| hash != *own) {
        return Some((Part::TwinMemory, seen.len()));
    }
    if refused && before[1].is_some_and(|hash| hash != *its) {
        return Some((Part::LinkMemory, seen.len()));
    }
    None
}
