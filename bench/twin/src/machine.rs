//! What a card applies its delivered entries to.

use crate::refusals::OUT_OF_RANGE;

/// A packed payload.
pub type Words = (u64, u64, u64);

/// A state with a start, which payloads change. The queue makes no difference to either of ours.
pub trait Machine: Clone {
    fn start() -> Self;
    /// Applies the payload that the words unpack to, or the blank one.
    fn apply_words(&mut self, queue: u8, words: Words);
    /// Packs the payload of these numbers, refused by 3 where there is none.
    fn make(numbers: (u64, u64, u64)) -> Result<Words, u8>;
    /// Unpacks the words and packs them again.
    fn repack(words: Words) -> Words;
    fn dump(&self, out: &mut Vec<u64>);
}

const CARRIERS: usize = 32;
/// Balances stay within this many cents, both ways.
const LIMIT: i64 = 9_000_000_000_000;
/// Amounts are packed with this added, so that none is below 0.
const SHIFT: i64 = 1 << 31;

/// A balance in cents for each of 32 carriers.
#[derive(Clone)]
pub struct Ledger {
    balances: [i64; CARRIERS],
}

/// A carrier's place and an amount, or none for words that no posting packs to.
#[inline]
fn posting((carrier, shifted, rest): Words) -> Option<(usize, i64)> {
    let carrier = usize::try_from(carrier).ok().filter(|carrier| *carrier < CARRIERS)?;
    let shifted = u32::try_from(shifted).ok()?;
    (rest == 0).then_some((carrier, i64::from(shifted) - SHIFT))
}

impl Machine for Ledger {
    fn start() -> Ledger {
        Ledger { balances: [0; CARRIERS] }
    }

    #[inline]
    fn apply_words(&mut self, _queue: u8, words: Words) {
        // The blank posting of 0 cents changes nothing, so words that are no posting may go by.
        let Some((carrier, amount)) = posting(words) else { return };
        let balance = self.balances[carrier] + amount;
        if (-LIMIT..=LIMIT).contains(&balance) {
            self.balances[carrier] = balance;
        }
    }

    fn make((carrier, cents, _): (u64, u64, u64)) -> Result<Words, u8> {
        let cents = i32::try_from(cents as i64).map_err(|_| OUT_OF_RANGE)?;
        if carrier >= CARRIERS as u64 {
            return Err(OUT_OF_RANGE);
        }
        Ok((carrier, (i64::from(cents) + SHIFT) as u64, 0))
    }

    fn repack(words: Words) -> Words {
        posting(words).map_or((0, SHIFT as u64, 0), |_| words)
    }

    fn dump(&self, out: &mut Vec<u64>) {
        out.extend(self.balances.iter().map(|balance| *balance as u64));
    }
}

const LOADS: usize = 64;
const BOOK: u64 = 1;
const RELEASE: u64 = 2;

/// The holder of each of 64 loads, 0 where it is open.
#[derive(Clone)]
pub struct Board {
    holders: [u16; LOADS],
}

/// A load's place, an act and a carrier, or none for words that no booking packs to.
#[inline]
fn booking((load, act, carrier): Words) -> Option<(usize, u64, u16)> {
    let load = usize::try_from(load).ok().filter(|load| *load < LOADS)?;
    let carrier = u16::try_from(carrier).ok().filter(|carrier| *carrier != 0)?;
    matches!(act, BOOK | RELEASE).then_some((load, act, carrier))
}

impl Machine for Board {
    fn start() -> Board {
        Board { holders: [0; LOADS] }
    }

    #[inline]
    fn apply_words(&mut self, _queue: u8, words: Words) {
        let Some((load, act, carrier)) = booking(words) else { return };
        let holder = &mut self.holders[load];
        if act == BOOK && *holder == 0 {
            *holder = carrier;
        } else if act == RELEASE && *holder == carrier {
            *holder = 0;
        }
    }

    fn make(numbers: (u64, u64, u64)) -> Result<Words, u8> {
        booking(numbers).map(|_| numbers).ok_or(OUT_OF_RANGE)
    }

    fn repack(words: Words) -> Words {
        booking(words).map_or((0, 0, 0), |_| words)
    }

    fn dump(&self, out: &mut Vec<u64>) {
        out.extend(self.holders.iter().map(|holder| u64::from(*holder)));
    }
}
