//! A whole job in one call, from document 02: how many traces, and what is in the list afterwards.
use super::*;

/// A list of so many places, each with a value of its own, which is no time.
pub fn former(places: usize) -> Vec<u32> {
    (0..places).map(|p| u32::MAX - p as u32).collect()
}

/// "1 to 8 as in Open, then 16: the list has fewer than T places", with "17, after 8", or T. The bodies of an accepted file stand one
/// after the other behind its table.
pub fn traces(file: &[u8], places: usize, hit_cycles: u32) -> Result<usize, u32> {
    match open(file, 0) {
        Err(n) if n != 9 => Err(n),
        _ => match u16::from_le_bytes([file[0], file[1]]) as usize {
            traces if hit_refusal(&file[2 + 6 * traces..], hit_cycles) != 0 => Err(17),
            traces if places < traces => Err(16),
            traces => Ok(traces),
        },
    }
}

/// The list after the call: "fills its first T places. Each equals what opening and timing that trace alone gives; the rest
/// of the list keeps its values." The time of a body alone is given.
pub fn list(file: &[u8], former: &[u32], time: impl Fn(&[u8]) -> u32, hit_cycles: u32) -> Vec<u32> {
    let filled = traces(file, former.len(), hit_cycles).unwrap_or(0);
    let alone = |t: usize| open(file, t as u32).map(|(at, length)| time(&file[at..at + length])).unwrap();
    (0..former.len()).map(|p| if p < filled { alone(p) } else { former[p] }).collect()
}
