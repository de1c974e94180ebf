//! The steps that need no rack: slots, entries, payloads, epochs, sizes.

use crate::session::{answer, frame, Reply};
use crate::words::code;
use twin::{Entry, Machine};

/// The slot writer over the first bytes of a filled buffer, all of which is told.
pub fn write(r: &[u64], out: &mut Vec<u64>) {
    let mut buffer = [0_u8; 128];
    for (index, byte) in buffer.iter_mut().enumerate() {
        *byte = (37 * index + 11) as u8;
    }
    let length = r[2].min(128) as usize;
    let written = frame(&r[3..])
        .and_then(|made| twin::write_slot(&mut buffer[..length], r[1] as usize, made));
    out.push(written.map_or_else(u64::from, |()| 0));
    for eight in buffer.chunks_exact(8) {
        out.push(eight.iter().rev().fold(0, |word, byte| word << 8 | u64::from(*byte)));
    }
}

pub fn read(r: &[u64]) -> Reply {
    let mut bytes = [0_u8; 72];
    for (eight, word) in bytes.chunks_exact_mut(8).zip(&r[3..12]) {
        eight.copy_from_slice(&word.to_le_bytes());
    }
    let length = r[2].min(72) as usize;
    twin::read_slot(&bytes[..length], r[1] as usize).and_then(|f| answer(&f.fields()))
}

/// The entry of a put; numbers that no header's field holds make none (8), whatever the queue.
pub fn entry(r: &[u64]) -> Result<Entry, u8> {
    let round = u32::try_from(r[0]).map_err(|_| 8)?;
    let leader = u8::try_from(r[1]).map_err(|_| 8)?;
    let count = u32::try_from(r[2]).map_err(|_| 8)?;
    Entry::new((round, leader, count), r[3] as u8, (r[4], r[5], r[6]))
}

pub fn numbers<M: Machine>(r: &[u64]) -> Reply {
    match r[0] {
        code::PAYLOAD => {
            let words = M::make((r[1], r[2], r[3]))?;
            answer(&[words.0, words.1, words.2])
        }
        code::LEAST_EPOCH => {
            let (round, leader) = twin::least_epoch(r[3] as u8, (r[1] as u32, r[2] as u8))?;
            answer(&[round.into(), leader.into()])
        }
        code::SHAPE => {
            let bytes = twin::bytes_for(r[1] as u8, r[2] as usize)?;
            if bytes == r[3] as usize {
                answer(&[])
            } else {
                Err(2)
            }
        }
        _ => {
            let words = M::repack((r[1], r[2], r[3]));
            answer(&[words.0, words.1, words.2])
        }
    }
}
