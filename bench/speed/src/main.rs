//! Times the proved rack beside the twin, both in this one run.
use sides::{plain, proved};
use std::hint::black_box;
use std::time::Instant;

/// How often each side is timed; the least counts.
const TIMES: usize = 15;

type Loop<'a> = &'a dyn Fn(u64) -> u64;

fn once(run: Loop, rounds: u64) -> (f64, u64) {
    let start = Instant::now();
    let sum = black_box(run(rounds));
    (start.elapsed().as_nanos() as f64, sum)
}

/// The least time of each, taken in turn, so that what disturbs one disturbs the other.
fn both(rounds: u64, proved: Loop, plain: Loop) -> (f64, f64) {
    let mut least = (f64::MAX, f64::MAX);
    for _ in 0..TIMES {
        let (a, sum) = once(proved, rounds);
        let (b, sum_plain) = once(plain, rounds);
        assert_eq!(sum, sum_plain, "the two did not do the same");
        assert_ne!(sum, u64::MAX, "something was refused");
        least = (least.0.min(a), least.1.min(b));
    }
    least
}

fn line(name: &str, (proved, plain): (f64, f64)) {
    println!("| {name} | {proved:.1} | {plain:.1} | {:.2} |", proved / plain);
}

fn title(name: &str) {
    println!("\n| {name} | proved, ns | twin, ns | ratio |");
    println!("|---|---:|---:|---:|");
}

/// A loop of so many rounds.
fn rounds(name: &str, count: u64, proved: Loop, plain: Loop) {
    let (a, b) = both(count, proved, plain);
    line(name, (a / count as f64, b / count as f64));
}

/// What is done on each of so many racks, without the opening, the first election and the first booking.
fn on_racks(name: &str, racks: u64, deeds: u64, each: u64, proved: Loop, plain: Loop) {
    let (a, b) = both(deeds, proved, plain);
    let (open_a, open_b) = both(0, proved, plain);
    let all = (racks * each) as f64;
    line(name, ((a - open_a) / all, (b - open_b) / all));
}

fn slots_and_lanes() {
    title("one frame");
    rounds("slot write", 1_000_000, &proved::slot_write, &plain::slot_write);
    rounds("slot read", 1_000_000, &proved::slot_read, &plain::slot_read);
    for (room, backlog) in [(16, 0), (128, 0), (128, 100), (1024, 0), (1024, 1000)] {
        let name = format!("rings, C = {room}, {backlog} waiting: send, look, drop");
        let proved = |k| proved::ring(3, room, backlog, k);
        rounds(&name, 500_000, &proved, &|k| plain::ring(3, room, backlog, k));
    }
    let name = "box, C = 8: send, look, drop";
    rounds(name, 500_000, &|k| proved::frame_box(0, k), &|k| plain::frame_box(0, k));
}

fn bookings(cards: u8, places: usize, room: usize) {
    let racks = 32768 / places as u64;
    let deeds = places as u64 - 1;
    let name = format!("n = {cards}, L = {places}, C = {room}");
    let proved = |k| proved::book(cards, places, room, racks, k);
    on_racks(&name, racks, deeds, deeds, &proved, &|k| plain::book(cards, places, room, racks, k));
}

fn elections(backlog: u64) {
    let racks = 20_000 / (backlog + 20);
    let name = format!("n = 3, L = 1024, diffs of {}", backlog + 1);
    let open = |k: u64| (k != 0).then_some(backlog);
    let proved = |k| match open(k) {
        Some(backlog) => proved::elect(3, 1024, 2048, racks, backlog),
        None => proved::book(3, 1024, 2048, racks, 0),
    };
    let plain = |k| match open(k) {
        Some(backlog) => plain::elect(3, 1024, 2048, racks, backlog),
        None => plain::book(3, 1024, 2048, racks, 0),
    };
    on_racks(&name, racks, 1, 1, &proved, &plain);
}

fn main() {
    slots_and_lanes();
    title("a booking, from its submit to the last card's commit");
    for cards in [3, 5, 7] {
        for places in [16, 128, 1024] {
            bookings(cards, places, 64);
        }
    }
    for room in [8, 1024] {
        bookings(3, 128, room);
    }
    title("an election: submits that reach nobody, timeouts, votes, win, diffs shipped and taken");
    for backlog in [0, 9, 99, 999] {
        elections(backlog);
    }
    println!(
        "\nBytes of lent memory for each frame that waits: {}",
        twin::bytes_for(3, 1).unwrap_or(0) / 36
    );
}
