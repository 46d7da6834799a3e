//! The bodies that are timed.
use crate::dice::Dice;

fn record(kind: u64, flags: u64, registers: [u64; 3], execution: u64, fetch: u64, data: u64) -> [u8; 10] {
    let f = (fetch as u16).to_le_bytes();
    let d = (data as u16).to_le_bytes();
    let [first, second, target] = registers.map(|r| r as u8);
    [kind as u8, flags as u8, first, second, target, execution as u8, f[0], f[1], d[0], d[1]]
}

/// Random kinds, a quarter each of them plain, loads, stores, and branches or jumps; registers; latencies from 1 to `most`, those of
/// data that much above the cycles of a hit; flags below `flags`: 2 for hits and misses, 3 for unknown ones too.
pub fn random(n: usize, most: u64, flags: u64, hit_cycles: u32) -> Vec<u8> {
    let mut d = Dice(88172645463325252);
    let mut body = Vec::new();
    for _ in 0..n {
        let kind = [0, 0, 1, 1, 2, 2, 3, 4][d.below(8) as usize];
        let memory = kind == 1 || kind == 2;
        let flag = d.below(flags) + if memory { 4 * d.below(flags) } else { 0 };
        let target = if kind == 2 || kind == 3 { 0 } else { d.below(32) };
        let latency = 1 + d.below(most);
        let data = if memory { hit_cycles as u64 + 1 + d.below(most) } else { 0 };
        body.extend(record(kind, flag, [d.below(32), d.below(32), target], d.below(4), latency, data));
    }
    body
}

pub fn plain(n: usize) -> Vec<u8> {
    record(0, 0, [0; 3], 0, 1, 0).repeat(n)
}

/// The trace with the latest finishing time that document 01 allows.
pub fn longest() -> Vec<u8> {
    record(1, 5, [0; 3], 255, 65535, 65535).repeat(sic::MAX_INSTRUCTIONS)
}
