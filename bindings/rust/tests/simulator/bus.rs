//! Time on a shared bus, from document 02: the accesses counted, the time, the refusals; and which accesses are under way.
use super::Stage::*;
use super::*;

/// The latencies of the counted accesses: "the fetches and the load and store accesses marked miss or unknown".
fn counted(trace: &[Instruction]) -> Vec<u32> {
    let fetches = trace.iter().filter(|i| i.fetch != HIT).map(|i| i.fetch_latency as u32);
    let memory = trace.iter().filter(|i| i.kind == LOAD || i.kind == STORE);
    fetches.chain(memory.filter(|i| i.access != HIT).map(|i| i.data_latency as u32)).collect()
}

/// Document 02's N.
pub fn accesses(trace: &[Instruction]) -> u32 {
    counted(trace).len() as u32
}

/// 10, 8, 17, 15, or 0.
pub fn refusal(body: &[u8], wait: u16, hit_cycles: u32) -> u32 {
    match timed_refusal(body, hit_cycles) {
        0 if counted(&decode(body)).iter().any(|latency| latency + wait as u32 > 65535) => 15,
        n => n,
    }
}

/// "Worst time plus N times d", for the worst time given.
pub fn time(trace: &[Instruction], worst: u32, wait: u16) -> u32 {
    worst + accesses(trace) * wait as u32
}

/// Whether the instruction, which stands there, has an access under way.
pub fn under_way_at(i: &Instruction, at: Place) -> bool {
    match (at.stage, i.kind) {
        (If, _) => i.fetch == MISS && at.count > 0,      // a missed fetch in IF with count above 0
        (Mem, LOAD) => i.access == MISS && at.count > 0, // a missed load in MEM with count above 0
        (St, _) => i.access == MISS && at.count > 0,     // a missed store in ST with count above 0
        (Mem, STORE) => i.access == MISS,                // a missed store in MEM
        _ => false,
    }
}

/// How many accesses of a settled trace are under way in a row.
pub fn under_way(trace: &[Instruction], row: &[Place]) -> usize {
    trace.iter().zip(row).filter(|(i, at)| under_way_at(i, **at)).count()
}

/// What an access can turn out to be: a flag and a latency.
fn outcomes(flag: u8, latency: u16, wait: u16) -> Vec<(u8, u16)> {
    let hit = (flag != MISS).then_some((HIT, latency));
    let missed = (0..=wait).filter(|_| flag != HIT).map(|added| (MISS, latency + added));
    hit.into_iter().chain(missed).collect()
}

/// How many traces `delayed` gives.
pub fn ways(trace: &[Instruction], wait: u16) -> u64 {
    let one = |i: &Instruction| (outcomes(i.fetch, 1, wait).len() * outcomes(i.access, 1, wait).len()) as u64;
    trace.iter().map(one).product()
}

/// "Every settling of the flags and every added wait from 0 to d on each missed access."
pub fn delayed(trace: &[Instruction], wait: u16) -> Vec<Vec<Instruction>> {
    let mut all = vec![vec![]];
    for i in trace {
        let accesses = outcomes(i.access, i.data_latency, wait);
        let fetched = |(fetch, fetch_latency)| Instruction { fetch, fetch_latency, ..*i };
        let both = |f: Instruction| accesses.iter().map(move |&(access, data_latency)| Instruction { access, data_latency, ..f });
        let one: Vec<Instruction> = outcomes(i.fetch, i.fetch_latency, wait).into_iter().map(fetched).flat_map(both).collect();
        all = all.iter().flat_map(|before| one.iter().map(move |&next| [&before[..], &[next]].concat())).collect();
    }
    all
}
