//! What the crates use of the port of memchr, eight bytes at a time.
#![allow(warnings)]

const LOW: u64 = 0x0101_0101_0101_0101;
const HIGH: u64 = 0x8080_8080_8080_8080;

#[inline]
fn zero_bytes(word: u64) -> u64 {
    word.wrapping_sub(LOW) & !word & HIGH
}

fn first(bytes: &[u8], any: impl Fn(u64) -> u64, one: impl Fn(u8) -> bool) -> Option<usize> {
    let (chunks, rest) = bytes.as_chunks::<8>();
    for (k, chunk) in chunks.iter().enumerate() {
        let found = any(u64::from_le_bytes(*chunk));
        if found != 0 {
            return Some(8 * k + found.trailing_zeros() as usize / 8);
        }
    }
    let at = rest.iter().position(|byte| one(*byte))?;
    Some(8 * chunks.len() + at)
}

pub fn memchr(byte: u8, bytes: &[u8]) -> Option<usize> {
    let all = LOW * byte as u64;
    first(bytes, |word| zero_bytes(word ^ all), |b| b == byte)
}

pub fn memchr2(byte: u8, other: u8, bytes: &[u8]) -> Option<usize> {
    let (all, all_other) = (LOW * byte as u64, LOW * other as u64);
    let either = |word| zero_bytes(word ^ all) | zero_bytes(word ^ all_other);
    first(bytes, either, |b| b == byte || b == other)
}
