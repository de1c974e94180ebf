//! The proved loops, as the static library exports them.

unsafe extern "C" {
    fn rack_bench_slot_write(rounds: u64) -> u64;
    fn rack_bench_slot_read(rounds: u64) -> u64;
    fn rack_bench_ring(cards: u8, room: usize, backlog: usize, rounds: u64) -> u64;
    fn rack_bench_box(backlog: usize, rounds: u64) -> u64;
    fn rack_bench_book(cards: u8, places: usize, room: usize, racks: u64, bookings: u64) -> u64;
    fn rack_bench_elect(cards: u8, places: usize, room: usize, racks: u64, backlog: u64) -> u64;
}

// SAFETY of each: numbers alone are passed, and the declarations above fit those of crates/rack_link.
pub fn slot_write(rounds: u64) -> u64 {
    unsafe { rack_bench_slot_write(rounds) }
}
pub fn slot_read(rounds: u64) -> u64 {
    unsafe { rack_bench_slot_read(rounds) }
}
pub fn ring(cards: u8, room: usize, backlog: usize, rounds: u64) -> u64 {
    unsafe { rack_bench_ring(cards, room, backlog, rounds) }
}
pub fn frame_box(backlog: usize, rounds: u64) -> u64 {
    unsafe { rack_bench_box(backlog, rounds) }
}
pub fn book(cards: u8, places: usize, room: usize, racks: u64, bookings: u64) -> u64 {
    unsafe { rack_bench_book(cards, places, room, racks, bookings) }
}
pub fn elect(cards: u8, places: usize, room: usize, racks: u64, backlog: u64) -> u64 {
    unsafe { rack_bench_elect(cards, places, room, racks, backlog) }
}
