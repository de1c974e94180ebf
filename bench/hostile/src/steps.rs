//! The seeded generator: a case's steps one after another, each made in sight of the state that
//! the steps before it have left.

use crate::facts::Facts;
use crate::forged;
use crate::honest::{self, Pending};
use crate::plan::{Plan, BRIM, KINDS, PROFILES};
use crate::rng::Rng;
use crate::scene::Scene;
use crate::wild;
use crate::words::{behind, code, record, Record, Setup, RECORD};

/// So many words wait only where a long diff is on its way.
const LONG: usize = 120 * RECORD;

type Forge = fn(&mut Rng, &Scene, &mut Pending);

pub struct Generator {
    rng: Rng,
    setup: Setup,
    weights: &'static [u64; KINDS],
    /// Whether one balance is to come to its bounds.
    brim: bool,
    pending: Pending,
}

impl Generator {
    pub fn new(rng: Rng, plan: &Plan) -> Generator {
        let weights = &PROFILES[plan.profile].weights;
        Generator {
            rng,
            setup: plan.setup,
            weights,
            brim: plan.profile == BRIM,
            pending: Pending::new(),
        }
    }

    /// The next step with all that belongs to it, behind the steps that there are.
    pub fn next(&mut self, facts: &dyn Facts, steps: &mut Vec<u64>) {
        match Scene::of(facts, self.setup) {
            None => {
                let step = self.unopened();
                steps.extend_from_slice(&step);
            }
            Some(scene) if scene.stuck() && self.rng.one_in(20) => {
                self.pending.clear();
                self.again(&scene);
                self.pop(steps);
            }
            Some(scene) => self.on_rack(&scene, steps),
        }
    }

    /// A frame that was refused stays in front of its lane. Mostly it is dropped by hand, or
    /// such lanes would be of no more use.
    pub fn saw(&mut self, group: &[u64], status: u64) {
        let front = match group[0] {
            code::TAKE => 0,
            code::LOOK => group[3],
            _ => return,
        };
        if !matches!(status, 8 | 9) || group[4] != 0 || self.rng.percent(25) {
            return;
        }
        let count = if self.rng.percent(60) { 1 } else { self.rng.between(1, 4) };
        let drop = record(code::DROP, &[group[2], group[1], front, count, 0]);
        for word in drop.iter().rev() {
            self.pending.push_front(*word);
        }
    }

    fn unopened(&mut self) -> Record {
        let step = wild::open(&mut self.rng, &self.setup);
        match self.rng.below(16) {
            0 => wild::wilder(&mut self.rng, step),
            1 => wild::mislent(&mut self.rng, step),
            // Without a rack no step needs sense; a play here has no calls.
            2 => match self.rng.below(code::ALL + 2) {
                code::PLAY => record(code::PLAY, &[0, 2]),
                any => record(any, &[1, 2, 0]),
            },
            3 => record(code::SEND, &[1, 2, 4, 4, 0, 0, 0]),
            5 | 6 => wild::edge_open(&mut self.rng, &self.setup),
            4 => record(code::DROP, &[1, 2, 4, 1]),
            _ => step,
        }
    }

    fn on_rack(&mut self, scene: &Scene, steps: &mut Vec<u64>) {
        let rng = &mut self.rng;
        // Elections fail where too much comes between their steps; without them nothing is deep.
        let hurried = if self.pending.len() > LONG {
            rng.percent(96)
        } else {
            !self.pending.is_empty() && rng.percent(35) && scene.leader().is_none()
        };
        let kind = if hurried { 0 } else { rng.weighted(self.weights) };
        let single = match kind {
            0 => return self.whole(scene, steps),
            1 => honest::useful(rng, scene).unwrap_or_else(|| wild::plausible(rng, scene)),
            2 => wild::plausible(rng, scene),
            3 => wild(rng, scene),
            4 => lengths(rng, scene),
            5 => forged::put(rng, scene).unwrap_or_else(|| wild::plausible(rng, scene)),
            6 => return self.forged(scene, steps, forged::frames),
            7 => drop_by_hand(rng, scene),
            8 if self.brim => brim(rng, &scene.setup),
            8 => apply(rng, &scene.setup),
            9 if rng.one_in(2) => wild::slot_read(rng, scene.setup.machine),
            9 => wild::slot_write(rng, scene.setup.machine),
            10 => wild::question(rng, scene),
            11 => record(code::STOP, &[scene.any(rng).into()]),
            12 => return self.play(scene, steps),
            13 if rng.one_in(2) => wild::open(rng, &scene.setup),
            13 => return self.reopened(scene, steps),
            _ => return self.forged(scene, steps, forged::last_rounds),
        };
        steps.extend_from_slice(&single);
    }

    /// Steps made by hand go before those that wait, so that they meet the state they aim at.
    fn forged(&mut self, scene: &Scene, steps: &mut Vec<u64>, make: Forge) {
        let mut fresh = Pending::new();
        make(&mut self.rng, scene, &mut fresh);
        fresh.append(&mut self.pending);
        self.pending = fresh;
        self.whole(scene, steps);
    }

    /// The first of the steps that wait; where none waits, those of a new macro.
    fn whole(&mut self, scene: &Scene, steps: &mut Vec<u64>) {
        if self.pending.is_empty() {
            honest::whole(&mut self.rng, scene, &mut self.pending);
        }
        if self.pending.is_empty() {
            let step = wild::plausible(&mut self.rng, scene);
            honest::queue(&mut self.pending, step);
        }
        self.pop(steps);
    }

    fn pop(&mut self, steps: &mut Vec<u64>) {
        let first = steps.len();
        steps.extend(self.pending.drain(..RECORD));
        let words = behind(&steps[first..]) * RECORD;
        steps.extend(self.pending.drain(..words));
    }

    /// Many calls in one step: those that wait, if they are calls, else calls of all kinds.
    fn play(&mut self, scene: &Scene, steps: &mut Vec<u64>) {
        let first = steps.len();
        let rng = &mut self.rng;
        let count = if rng.one_in(3) { rng.below(17) } else { rng.between(8, 16) };
        if self.pending.is_empty() && rng.percent(70) {
            honest::whole(rng, scene, &mut self.pending);
        }
        let head = [count, count, scene.elen(), scene.mlen(), scene.which];
        let mut head = record(code::PLAY, &head);
        if rng.percent(6) {
            head = wild::mislent(rng, head);
        }
        if count == 16 && rng.one_in(20) {
            // More than 16 are 16.
            head[1] = rng.pick(&[17, 20, 272, 1 << 32, u64::MAX]);
        }
        steps.extend_from_slice(&head);
        for _ in 0..count {
            let ready = self.pending.front().is_some_and(|c| (1..=10).contains(c));
            if ready {
                steps.extend(self.pending.drain(..RECORD));
            } else {
                let call = within_play(rng, scene);
                steps.extend_from_slice(&call);
            }
        }
        debug_assert_eq!(steps.len(), first + (1 + count as usize) * RECORD);
    }

    /// All lanes emptied by hand and the rack opened anew.
    fn again(&mut self, scene: &Scene) {
        let cards = if scene.which == 0 { self.setup.cards } else { scene.cards.into() };
        for from in 1..=cards as u8 {
            for to in 1..=cards as u8 {
                for number in [0, 4, 5, 6] {
                    let count = scene.waiting(from, to, number) as u64;
                    if count > 0 {
                        let lane = [from.into(), to.into(), number.into(), count, scene.which];
                        honest::queue(&mut self.pending, record(code::DROP, &lane));
                    }
                }
            }
        }
        if self.rng.one_in(3) {
            let open = wild::edge_open(&mut self.rng, &self.setup);
            honest::queue(&mut self.pending, open);
        }
        let open = wild::open(&mut self.rng, &self.setup);
        honest::queue(&mut self.pending, open);
    }

    fn reopened(&mut self, scene: &Scene, steps: &mut Vec<u64>) {
        if self.rng.one_in(2) {
            let step = wild::open(&mut self.rng, &self.setup);
            let step = match self.rng.below(3) {
                0 => wild::wilder(&mut self.rng, step),
                _ => wild::mislent(&mut self.rng, step),
            };
            return steps.extend_from_slice(&step);
        }
        self.pending.clear();
        self.again(scene);
        self.pop(steps);
    }
}

fn within_play(rng: &mut Rng, scene: &Scene) -> Record {
    let call = match rng.below(10) {
        0 => wild::plausible(rng, scene),
        _ => honest::useful(rng, scene).unwrap_or_else(|| wild::plausible(rng, scene)),
    };
    match rng.below(60) {
        0 => wild::wilder(rng, call),
        1 => record(rng.pick(&[0, 11, 18, 99, u64::MAX]), &[1, 2, 3]),
        2 if rng.one_in(12) => record(code::STOP, &[scene.any(rng).into()]),
        _ => call,
    }
}

fn wild(rng: &mut Rng, scene: &Scene) -> Record {
    let step = match rng.below(12) {
        0..=4 => wild::plausible(rng, scene),
        5..=7 => honest::useful(rng, scene).unwrap_or_else(|| wild::plausible(rng, scene)),
        8 | 9 => wild::question(rng, scene),
        10 if rng.one_in(4) => record(code::STOP, &[0]),
        10 => apply(rng, &scene.setup),
        _ if rng.one_in(10) => return record(rng.pick(&[32, 33, 255, 256, u64::MAX]), &[1, 2, 3]),
        _ => drop_by_hand(rng, scene),
    };
    wild::wilder(rng, step)
}

fn lengths(rng: &mut Rng, scene: &Scene) -> Record {
    for _ in 0..4 {
        let step = match rng.below(4) {
            0 => wild::question(rng, scene),
            1 => wild::plausible(rng, scene),
            _ => honest::useful(rng, scene).unwrap_or_else(|| wild::plausible(rng, scene)),
        };
        let wrong = wild::mislent(rng, step);
        if wrong != step {
            return wrong;
        }
    }
    wild::plausible(rng, scene)
}

fn drop_by_hand(rng: &mut Rng, scene: &Scene) -> Record {
    let (from, to, number) = wild::busy_lane(rng, scene);
    let waiting = scene.waiting(from, to, number) as u64;
    let count = if rng.one_in(4) { waiting + 1 } else { rng.below(waiting + 1) };
    record(code::DROP, &[from.into(), to.into(), number.into(), count, scene.which])
}

fn apply(rng: &mut Rng, setup: &Setup) -> Record {
    let (w1, w2, w3) = if rng.one_in(4) {
        (rng.wild(), rng.wild(), rng.wild())
    } else {
        honest::payload(rng, setup.machine)
    };
    let past = u64::from(rng.one_in(20));
    let index = rng.below(setup.cards + 2 + past);
    record(code::APPLY, &[index, rng.below(20), w1, w2, w3])
}

/// The largest postings, nearly all to one balance, until it takes no more.
fn brim(rng: &mut Rng, setup: &Setup) -> Record {
    let most = u64::from(u32::MAX);
    if rng.percent(98) {
        return record(code::APPLY, &[0, rng.below(16), 31, most, 0]);
    }
    let index = rng.below(setup.machines() as u64);
    record(code::APPLY, &[index, rng.below(16), 31, rng.pick(&[0, most - 1, 1 << 31]), 0])
}
