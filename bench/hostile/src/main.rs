//! Hostile callers: two implementations of one rack, compared call by call.

mod compare;
mod counts;
mod dump;
mod facts;
mod forged;
mod honest;
mod layout;
mod link;
mod plan;
mod plant;
mod report;
mod rng;
mod scene;
mod script;
mod session;
mod shrink;
mod slots;
mod steps;
mod wild;
mod words;

use compare::Bench;
use counts::Counts;
use plan::PROFILES;
use rng::Rng;

use std::panic::PanicHookInfo;
use std::process::ExitCode;
use std::sync::atomic::{AtomicU64, Ordering::Relaxed};
use std::thread::Builder;
use std::time::Instant;

struct Options {
    seed: u64,
    calls: u64,
    threads: u64,
    case: Option<u64>,
    plant: u64,
    /// All of a case is printed, whether it differs or not.
    show: bool,
    /// Each case is named before it begins, so that one which ends the program is known.
    trace: bool,
}

impl Options {
    fn usual() -> Options {
        let (seed, calls, threads) = (20261126, 10_000_000, 4);
        Options { seed, calls, threads, case: None, plant: 0, show: false, trace: false }
    }
}

const USAGE: &str = "hostile [--seed N] [--calls N] [--threads N] [--case N] [--show CASE] \
                     [--plant 1..8] [--trace 1]";

/// Threads' stacks: nobody has said how much the library needs.
const STACK: usize = 64 << 20;

fn options() -> Option<Options> {
    let mut options = Options::usual();
    let mut words = std::env::args().skip(1);
    while let Some(word) = words.next() {
        let number: u64 = words.next()?.replace('_', "").parse().ok()?;
        match word.as_str() {
            "--seed" => options.seed = number,
            "--calls" => options.calls = number,
            "--threads" => options.threads = number.max(1),
            "--case" => options.case = Some(number),
            "--show" => (options.case, options.show) = (Some(number), true),
            "--trace" => options.trace = number > 0,
            "--plant" if number < plant::PLANTS.len() as u64 => options.plant = number,
            _ => return None,
        }
    }
    Some(options)
}

/// How many cases have so many steps in all: known before any is run, whatever the threads do.
fn cases(options: &Options) -> u64 {
    let (mut cases, mut steps) = (0, 0);
    while steps < options.calls {
        steps += plan::plan(&mut Rng::of_case(options.seed, cases)).steps as u64;
        cases += 1;
    }
    cases
}

/// One thread's share: cases are taken in turn until one differs.
fn work(options: &Options, next: &AtomicU64, until: &AtomicU64) -> Counts {
    let mut bench = Bench::planted(options.plant);
    let mut counts = Counts::new(PROFILES.len());
    loop {
        let case = next.fetch_add(1, Relaxed);
        // Cases in front of a differing one are still run, so that the first one is told.
        if case >= until.load(Relaxed) {
            return counts;
        }
        if options.trace {
            eprintln!("case {case}");
        }
        if bench.case(options.seed, case, &mut counts).1.is_some() {
            until.fetch_min(case, Relaxed);
            return counts;
        }
    }
}

/// A fallen twin falls again and again while its case is shrunk: few words are enough.
fn fallen(told: &PanicHookInfo) {
    static TIMES: AtomicU64 = AtomicU64::new(0);
    if TIMES.fetch_add(1, Relaxed) < 4 {
        eprintln!("fallen: {told}");
    }
}

fn main() -> ExitCode {
    std::panic::set_hook(Box::new(fallen));
    let Some(options) = options() else {
        eprintln!("{USAGE}");
        return ExitCode::from(2);
    };
    let (first, end) = match options.case {
        Some(case) => (case, case + 1),
        None => (0, cases(&options)),
    };
    if options.show {
        report::show(options.seed, first);
    }
    println!("seed {}, cases {first} to {}", options.seed, end - 1);
    if options.plant > 0 {
        println!("planted: {}", plant::PLANTS[options.plant as usize]);
    }
    let began = Instant::now();
    let (next, until) = (AtomicU64::new(first), AtomicU64::new(end));
    let mut all = Counts::new(PROFILES.len());
    std::thread::scope(|scope| {
        let spawn = |_| {
            let builder = Builder::new().stack_size(STACK);
            let begun = builder.spawn_scoped(scope, || work(&options, &next, &until));
            begun.expect("a thread could not begin")
        };
        for thread in (0..options.threads).map(spawn).collect::<Vec<_>>() {
            all.add(&thread.join().expect("a thread has fallen"));
        }
    });
    let differing = until.into_inner();
    if differing < end {
        report::difference(options.seed, differing, options.plant);
        return ExitCode::from(1);
    }
    println!("{}", all.tables(&PROFILES.each_ref().map(|profile| profile.name)));
    println!("differences: 0 ({:.1} s)", began.elapsed().as_secs_f64());
    ExitCode::SUCCESS
}
