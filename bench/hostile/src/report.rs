//! What is told of a difference.

use crate::compare::{Bench, Part, Spot};
use crate::counts::Counts;
use crate::layout::meaning;
use crate::plan::PROFILES;
use crate::script;
use crate::shrink::shrink;
use crate::words::{groups, Setup};

pub fn difference(seed: u64, case: u64, plant: u64) {
    let mut bench = Bench::planted(plant);
    let (plan, spot) = bench.case(seed, case, &mut Counts::new(PROFILES.len()));
    let Some(found) = spot else { return println!("case {case}: the difference is gone") };
    println!("DIFFERENCE: seed {seed}, case {case}, profile {}", PROFILES[plan.profile].name);
    println!("{:?}", plan.setup);
    println!("found at step {} of {}", found.step, plan.steps);
    told(&bench, &plan.setup, found);
    let (_, spot) = shrink(&mut bench, plan.setup, found);
    println!("\nshrunk to {} steps:", spot.step + 1);
    for (step, group) in groups(&bench.steps).enumerate() {
        println!("{step:4}  {}", script::text(group));
    }
    told(&bench, &plan.setup, spot);
    println!("\nas a script:\n{}", script::script(&plan.setup, &bench));
}

fn told(bench: &Bench, setup: &Setup, spot: Spot) {
    let [twin, link] = bench.told(spot.step);
    let (Some((reply, dump)), Some((other, others))) = (twin, link) else {
        return println!("step {}: one side's words end too soon", spot.step);
    };
    println!("step {}: {:?} differs", spot.step, spot.part);
    println!("  twin's reply: {reply:?}\n  library's:    {other:?}");
    let at = match spot.part {
        Part::Dump => spot.at,
        // The dump may differ besides: its first such word tells more than the reply alone.
        Part::Reply => match dump.iter().zip(others).position(|(a, b)| a != b) {
            Some(at) if at + 1 < dump.len().min(others.len()) => at,
            _ => return println!("  the dumps are the same"),
        },
        Part::TwinMemory => return println!("  refused, but the twin's entries changed"),
        Part::LinkMemory => return println!("  refused, but the library's entries changed"),
        Part::Length => return println!("  one side's words end too soon"),
    };
    let (own, its) = (dump.get(at), others.get(at));
    println!(
        "  dump word {at} of {} and {}: {}",
        dump.len(),
        others.len(),
        meaning(dump, at, setup)
    );
    println!("  twin {own:?}, library {its:?}");
}

/// All steps of a case, and the twin's replies to them.
pub fn show(seed: u64, case: u64) {
    let mut bench = Bench::planted(0);
    let (plan, _) = bench.case(seed, case, &mut Counts::new(PROFILES.len()));
    println!("profile {}, {:?}", PROFILES[plan.profile].name, plan.setup);
    for (step, group) in groups(&bench.steps).enumerate() {
        let reply = bench.told(step)[0].map_or(&[][..], |(reply, _)| reply);
        println!("{step:4}  {}  -> {:?}", script::text(group), &reply[..reply.len().min(12)]);
    }
}
