//! One loop on one side, for a tool that counts instructions: `count proved|twin WHAT`.
use sides::{plain, proved};
use std::process::ExitCode;

/// Racks that are opened, and bookings on each after its first.
const RACKS: u64 = 40;
const BOOKINGS: u64 = 127;
const ROUNDS: u64 = 10_000;

/// How often the thing is done, by which the count is to be divided, and the sum.
fn run(side: &str, what: &str) -> Option<u64> {
    Some(match (side, what) {
        ("proved", "write") => proved::slot_write(ROUNDS),
        ("twin", "write") => plain::slot_write(ROUNDS),
        ("proved", "read") => proved::slot_read(ROUNDS),
        ("twin", "read") => plain::slot_read(ROUNDS),
        ("proved", "ring") => proved::ring(3, 128, 0, ROUNDS),
        ("twin", "ring") => plain::ring(3, 128, 0, ROUNDS),
        ("proved", "box") => proved::frame_box(0, ROUNDS),
        ("twin", "box") => plain::frame_box(0, ROUNDS),
        ("proved", "open3") => proved::book(3, 128, 64, RACKS, 0),
        ("twin", "open3") => plain::book(3, 128, 64, RACKS, 0),
        ("proved", "book3") => proved::book(3, 128, 64, RACKS, BOOKINGS),
        ("twin", "book3") => plain::book(3, 128, 64, RACKS, BOOKINGS),
        ("proved", "open7") => proved::book(7, 128, 64, RACKS, 0),
        ("twin", "open7") => plain::book(7, 128, 64, RACKS, 0),
        ("proved", "book7") => proved::book(7, 128, 64, RACKS, BOOKINGS),
        ("twin", "book7") => plain::book(7, 128, 64, RACKS, BOOKINGS),
        _ => return None,
    })
}

fn main() -> ExitCode {
    let words: Vec<String> = std::env::args().skip(1).collect();
    let [side, what] = words.as_slice() else {
        eprintln!("count proved|twin write|read|ring|box|open3|book3|open7|book7");
        return ExitCode::from(2);
    };
    match run(side, what) {
        Some(sum) if sum != u64::MAX => {
            println!("{sum}");
            ExitCode::SUCCESS
        }
        Some(_) => {
            eprintln!("something was refused");
            ExitCode::FAILURE
        }
        None => {
            eprintln!("no such loop: {side} {what}");
            ExitCode::from(2)
        }
    }
}
