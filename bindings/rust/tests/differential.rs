//! The library against the simulator on random traces and damaged files, for SIC_SECONDS seconds
//! (5 where it is not set), on every processor, from a seed that is new each time unless SIC_SEED gives one.
mod simulator;

use sic::State;
use simulator::dice::Dice;
use simulator::*;
use std::sync::atomic::{AtomicU64, Ordering};
use std::time::{Duration, Instant, SystemTime, UNIX_EPOCH};

impl Dice {
    fn latency(&mut self) -> u16 {
        1 + self.below(6) as u16
    }

    /// From 0 to 16, which is one too many, and often few, since these delay less of what else there is to wait for.
    fn hit_cycles(&mut self) -> u32 {
        let numbers = [4, 17][self.below(2) as usize];
        self.below(numbers) as u32
    }

    /// Branches and jumps are drawn half as often as the others: behind them a fetch waits, and fewer instructions get in each other's
    /// way.
    fn kind(&mut self) -> u8 {
        [PLAIN, PLAIN, LOAD, LOAD, STORE, STORE, BRANCH, JUMP][self.below(8) as usize]
    }

    /// Its data latency is above the cycles of a hit.
    fn instruction(&mut self, flags: u64, hit_cycles: u32) -> Instruction {
        let kind = self.kind();
        let memory = kind == LOAD || kind == STORE;
        Instruction {
            kind,
            fetch: self.below(flags) as u8,
            access: if memory { self.below(flags) as u8 } else { HIT },
            source1: self.below(4) as u8,
            source2: self.below(4) as u8,
            target: if kind == STORE || kind == BRANCH { 0 } else { self.below(4) as u8 },
            execution: (self.below(2) * self.below(5)) as u8,
            fetch_latency: self.latency(),
            data_latency: if memory { hit_cycles as u16 + self.latency() } else { 0 },
        }
    }

    fn trace(&mut self, flags: u64, hit_cycles: u32) -> Vec<Instruction> {
        let mut trace: Vec<Instruction> = (0..self.below(15)).map(|_| self.instruction(flags, hit_cycles)).collect();
        self.shorten(&mut trace, hit_cycles);
        trace
    }

    /// In one trace of four, the data latency of a load or store, if it has any, made about as long as a hit takes, and mostly no
    /// longer.
    fn shorten(&mut self, trace: &mut [Instruction], hit_cycles: u32) {
        if self.below(4) > 0 {
            return;
        }
        let (at, less) = (self.below(trace.len() as u64 + 1) as usize, self.below(3) as u32);
        if let Some(i) = trace.iter_mut().skip(at).find(|i| i.data_latency > 0) {
            i.data_latency = (hit_cycles + 1).saturating_sub(less).max(1) as u16;
        }
    }

    /// Any wait, but often one of those where 15 begins for latencies of a few cycles, and often a short one.
    fn wait(&mut self) -> u16 {
        match self.below(3) {
            0 => self.below(65536) as u16,
            1 => 65535 - self.below(8) as u16,
            _ => self.below(8) as u16,
        }
    }

    /// Some latencies of hits made as long as any: a hit takes the same cycles whatever its latency, and is not counted.
    fn lengthen_hits(&mut self, trace: &mut [Instruction]) {
        for i in trace {
            if i.fetch == HIT && self.below(2) == 0 {
                i.fetch_latency = 65535 - self.below(8) as u16;
            }
            if i.access == HIT && i.data_latency > 0 && self.below(2) == 0 {
                i.data_latency = 65535 - self.below(8) as u16;
            }
        }
    }

    /// Cut anywhere, a byte longer, or with one byte changed, every other time to one below 16, which as a kind or as flags may keep the
    /// rules or just break them, and as a target is a register.
    fn damage(&mut self, bytes: &mut Vec<u8>) {
        match self.below(4) {
            0 => bytes.truncate(self.below(bytes.len() as u64 + 1) as usize),
            1 => bytes.push(self.below(256) as u8),
            _ if bytes.is_empty() => {}
            how => {
                let most = if how == 2 { bytes.len().min(20) } else { bytes.len() };
                let at = self.below(most as u64) as usize;
                let values = [16, 256][self.below(2) as usize];
                bytes[at] = self.below(values) as u8;
            }
        }
    }
}

fn number<T>(answer: Result<T, sic::Refusal>) -> Result<T, u32> {
    answer.map_err(|r| r.number())
}

fn state_of(slots: &Slots) -> State {
    let slot = |h: Held| h.map_or(sic::Slot::default(), |(i, count)| sic::Slot { filled: true, index: i as u32, count });
    let [f, d, e, m, s, w] = slots.held.map(slot);
    State { fetched: slots.fetched as u32, IF: f, ID: d, EX: e, MEM: m, ST: s, WB: w }
}

fn slots_in(s: &State) -> Slots {
    let held = [s.IF, s.ID, s.EX, s.MEM, s.ST, s.WB].map(|slot| slot.filled.then_some((slot.index as usize, slot.count)));
    Slots { fetched: s.fetched as usize, held }
}

/// Every row of a trace that is not refused with these cycles of a hit.
fn rows_agree(trace: &[Instruction], hit_cycles: u32) {
    let body = encode(trace);
    let rows = rows(trace, hit_cycles);
    let finish = rows.len() as u32 - 1;
    assert_eq!(sic::finish(&body, hit_cycles), Ok(finish));
    one_access_at_a_time(trace, &rows);
    let mut state = State::start();
    for (t, row) in rows.iter().enumerate() {
        let expected = state_of(&slots_of(row));
        let left = t as u32 == finish;
        assert_eq!(sic::run(&body, t as u32, hit_cycles), Ok(sic::Ran { state: expected, cycles: t as u32, left }));
        assert_eq!(state, expected);
        let next = rows.get(t + 1).unwrap_or(row);
        assert_eq!(sic::step(&body, state, hit_cycles), Ok(state_of(&slots_of(next))));
        state.advance(&body, hit_cycles).unwrap();
    }
    assert_eq!(sic::run(&body, finish + 3, hit_cycles).unwrap().cycles, finish);
}

/// A state near one of a run, with hits of 0 cycles where those given are refused: orderly or not, and mostly one that no run comes
/// to.
fn state_near(dice: &mut Dice, body: &[u8], hit_cycles: u32) -> State {
    let limit = dice.below(40 + 8 * hit_cycles as u64) as u32;
    let mut s = sic::run(body, limit, hit_cycles).or_else(|_| sic::run(body, limit, 0)).unwrap().state;
    for _ in 0..1 + dice.below(3) {
        let slots = [&mut s.IF, &mut s.ID, &mut s.EX, &mut s.MEM, &mut s.ST, &mut s.WB];
        let slot = slots.into_iter().nth(dice.below(6) as usize).unwrap();
        match dice.below(9) {
            0 => s.fetched = s.fetched.wrapping_add(1),
            1 => s.fetched = s.fetched.wrapping_sub(1),
            2 => *slot = sic::Slot::default(),
            3 => *slot = sic::Slot { filled: true, index: dice.below(15) as u32, count: 0 },
            4 => slot.filled = !slot.filled,
            5 => slot.index = [0, slot.index.wrapping_add(1), slot.index.wrapping_sub(1), u32::MAX][dice.below(4) as usize],
            6 => slot.count = hit_cycles + dice.below(2) as u32,
            _ => slot.count = [0, 1, slot.count.wrapping_add(1), slot.count.wrapping_sub(1)][dice.below(4) as usize],
        }
    }
    s
}

fn steps_agree(dice: &mut Dice, trace: &[Instruction], hit_cycles: u32) {
    let body = encode(trace);
    let mut state = state_near(dice, &body, hit_cycles);
    let slots = slots_in(&state);
    let expected = match settled_refusal(&body, hit_cycles) {
        0 if state_of(&slots) == state && orderly(trace, &slots, hit_cycles) => {
            Ok(state_of(&slots_of(&cycle(trace, &places_of(trace, &slots), hit_cycles))))
        }
        0 => Err(12),
        n => Err(n),
    };
    assert_eq!(number(sic::step(&body, state, hit_cycles)), expected);
    let kept = expected.unwrap_or(state);
    assert_eq!(by_value::step(&body, state, hit_cycles), (expected.err().unwrap_or(0), kept));
    assert_eq!(number(state.advance(&body, hit_cycles)), expected.map(|_| ()));
    assert_eq!(state, kept);
}

/// A trace with more unknown flags has too many settlings to run them all.
const MOST_UNKNOWNS: u32 = 5;

/// How many settlings were compared.
fn bounds_agree(trace: &[Instruction], deadline: u32, hit_cycles: u32) -> u64 {
    if unknowns(trace) > MOST_UNKNOWNS || timed_refusal(&encode(trace), hit_cycles) != 0 {
        return 0;
    }
    let times = settling_times(trace, hit_cycles);
    let (best, worst) = (*times.iter().min().unwrap(), *times.iter().max().unwrap());
    let body = encode(trace);
    assert_eq!(sic::best_worst(&body, hit_cycles), Ok(sic::BestAndWorst { best, worst }));
    assert_eq!(sic::margin(&body, deadline, hit_cycles), Ok(deadline as i64 - worst as i64));
    times.len() as u64
}

/// The worst time of an accepted body by the simulator; where it does not run the settlings, the library's own.
fn worst_of(body: &[u8], hit_cycles: u32) -> u32 {
    let trace = decode(body);
    match sic::best_worst(body, hit_cycles).unwrap().worst {
        time if time < 1000 && unknowns(&trace) <= MOST_UNKNOWNS => settling_times(&trace, hit_cycles).into_iter().max().unwrap(),
        time => time,
    }
}

/// What the call answers to any body.
fn bus_times_agree(body: &[u8], wait: u16, hit_cycles: u32) {
    let trace = decode(body);
    let expected = match bus::refusal(body, wait, hit_cycles) {
        0 => Ok((bus::accesses(&trace), bus::time(&trace, worst_of(body, hit_cycles), wait))),
        n => Err(n),
    };
    let answer = sic::bus_time(body, wait, hit_cycles).map(|b| (b.accesses, b.time));
    assert_eq!(number(answer), expected, "wait {wait}, hits of {hit_cycles}");
}

/// At most one access is under way in each row, and each miss in as many rows as its latency has cycles.
fn one_access_at_a_time(trace: &[Instruction], rows: &[Vec<Place>]) {
    let under_way: Vec<usize> = rows.iter().map(|row| bus::under_way(trace, row)).collect();
    assert!(under_way.iter().all(|&n| n <= 1), "{under_way:?} under way");
    for (k, i) in trace.iter().enumerate() {
        let places = || rows.iter().map(|row| row[k]).filter(|&at| bus::under_way_at(i, at));
        let fetching = places().filter(|at| at.stage == Stage::If).count();
        let missed = |flag, latency| if flag == MISS { latency as usize } else { 0 };
        assert_eq!(fetching, missed(i.fetch, i.fetch_latency), "the fetch of {k} in {trace:?}");
        assert_eq!(places().count() - fetching, missed(i.access, i.data_latency), "the data access of {k} in {trace:?}");
    }
}

/// How many settlings with their waits were run; none where there are too many of them.
fn all_finish_in_time(trace: &[Instruction], wait: u16, hit_cycles: u32) -> u64 {
    if bus::ways(trace, wait) > 256 || timed_refusal(&encode(trace), hit_cycles) != 0 {
        return 0;
    }
    let time = sic::bus_time(&encode(trace), wait, hit_cycles).unwrap().time;
    let delayed = bus::delayed(trace, wait);
    for settled in &delayed {
        let rows = rows(settled, hit_cycles);
        assert!(rows.len() as u32 - 1 <= time, "{settled:?} takes {} cycles, and {time} were given", rows.len() - 1);
        one_access_at_a_time(settled, &rows);
    }
    delayed.len() as u64
}

fn records_agree(dice: &mut Dice, bytes: &[u8]) {
    let k = dice.below(16) as u32;
    let expected = bytes.chunks_exact(10).nth(k as usize).map(|b| decode(b)[0]);
    let read = sic::record_at(bytes, k).ok();
    assert_eq!(
        read.map(|r| [r.kind, r.fetch, r.access, r.source1, r.source2, r.target, r.execution, r.fetch_latency, r.data_latency]),
        expected.map(|i| i.fields())
    );
}

fn refusals_agree(body: &[u8], other: &[u8], hit_cycles: u32) {
    let given = |n: u32| if n == 0 { None } else { sic::Refusal::of(n) };
    let timed = given(timed_refusal(body, hit_cycles));
    let settled = settled_refusal(body, hit_cycles);
    let first = if settled != 0 { settled } else { settled_refusal(other, hit_cycles) };
    assert_eq!(sic::View::new(body).err(), given(body_refusal(body)));
    assert_eq!(sic::best_worst(body, hit_cycles).err(), timed);
    assert_eq!(sic::margin(body, 7, hit_cycles).err(), timed);
    assert_eq!(sic::finish(body, hit_cycles).err(), given(settled));
    assert_eq!(sic::run(body, 7, hit_cycles).err(), given(settled));
    assert_eq!(sic::step(body, State::start(), hit_cycles).err(), given(settled));
    assert_eq!(by_value::step(body, State::start(), hit_cycles).0, settled);
    assert_eq!(sic::alike(body, other, hit_cycles).err(), given(first));
}

fn files_agree(dice: &mut Dice, records: &[u8]) {
    let n = (records.len() / 10) as u64;
    let a = dice.below(n + 1);
    let b = dice.below(n - a + 1);
    let mut counts = vec![a as u16, b as u16, (n - a - b) as u16];
    match dice.below(16) {
        0 => counts.resize(17, 0),
        1 => counts[0] = 4097,
        2 => drop(counts.pop()),
        _ => {}
    }
    let room = if dice.below(8) == 0 { 40 } else { 400 };
    let mut out = vec![7; room];
    let expected = write(&counts, records, room);
    assert_eq!(sic::write(&counts, records, &mut out).map_err(|r| r.number()), expected.as_ref().map(|f| f.len()).map_err(|&n| n));
    let mut file = expected.unwrap_or_default();
    assert_eq!(out[..file.len()], file);
    assert!(out[file.len()..].iter().all(|&b| b == 7));
    for _ in 0..2 {
        for trace in 0..4 {
            let found = sic::open(&file, trace).map_err(|r| r.number());
            assert_eq!(found, open(&file, trace).map(|(at, length)| &file[at..at + length]));
        }
        dice.damage(&mut file);
    }
}

/// What the call answers to any file and list, and every place of the list afterwards.
fn jobs_agree(file: &[u8], places: usize, hit_cycles: u32) {
    let mut times = job::former(places);
    let answer = number(sic::worst_times(file, &mut times, hit_cycles));
    assert_eq!(answer, job::traces(file, places, hit_cycles), "{places} places, hits of {hit_cycles}");
    let expected = job::list(file, &job::former(places), |body| worst_of(body, hit_cycles), hit_cycles);
    assert_eq!(times, expected, "{places} places, hits of {hit_cycles}");
}

/// A job of 0 to 16 short traces, whole and damaged, with lists about as long as it has traces.
fn whole_jobs_agree(dice: &mut Dice) {
    let hit_cycles = dice.hit_cycles();
    let counts: Vec<u16> = (0..dice.below(17)).map(|_| dice.below(4) as u16).collect();
    let mut all: Vec<Instruction> = (0..counts.iter().sum::<u16>()).map(|_| dice.instruction(3, hit_cycles)).collect();
    dice.shorten(&mut all, hit_cycles);
    let mut file = write(&counts, &encode(&all), sic::MAX_FILE_BYTES).unwrap();
    for _ in 0..2 {
        for places in [counts.len().saturating_sub(1), counts.len(), counts.len() + 3] {
            jobs_agree(&file, places, hit_cycles);
        }
        dice.damage(&mut file);
    }
}

/// The trace on a bus, and its first few instructions with every wait; how many settlings with their waits were run.
fn buses_agree(dice: &mut Dice, mut trace: Vec<Instruction>, hit_cycles: u32) -> u64 {
    dice.lengthen_hits(&mut trace);
    bus_times_agree(&encode(&trace), dice.wait(), hit_cycles);
    trace.truncate(1 + dice.below(4) as usize);
    all_finish_in_time(&trace, dice.below(4) as u16, hit_cycles)
}

/// Two traces without unknown flags, the first row by row, and both together; how many are refused with 17.
fn known_agree(dice: &mut Dice) -> u64 {
    let hit_cycles = dice.hit_cycles();
    let (trace, other) = (dice.trace(2, hit_cycles), dice.trace(2, hit_cycles));
    let refused = [&trace, &other].map(|t| timed_refusal(&encode(t), hit_cycles) != 0);
    refusals_agree(&encode(&trace), &encode(&other), hit_cycles);
    if !refused[0] {
        rows_agree(&trace, hit_cycles);
    }
    for _ in 0..8 {
        steps_agree(dice, &trace, hit_cycles);
    }
    if refused == [false; 2] {
        let equal = finish(&trace, hit_cycles) == finish(&other, hit_cycles);
        assert_eq!(sic::alike(&encode(&trace), &encode(&other), hit_cycles), Ok(equal));
    }
    refused.into_iter().map(u64::from).sum()
}

/// A trace with unknown flags, whole and damaged, alone, on a bus and in files; how many traces were run, and whether 17 refuses it.
fn unknown_agree(dice: &mut Dice) -> (u64, bool) {
    let hit_cycles = dice.hit_cycles();
    let unknown = dice.trace(3, hit_cycles);
    let deadline = dice.below(100) as u32;
    let mut body = encode(&unknown);
    let refused = timed_refusal(&body, hit_cycles) != 0;
    refusals_agree(&body, &[], hit_cycles);
    let settlings = bounds_agree(&unknown, deadline, hit_cycles);
    files_agree(dice, &body);
    let waiting = buses_agree(dice, unknown, hit_cycles);
    dice.damage(&mut body);
    bus_times_agree(&body, dice.wait(), hit_cycles);
    records_agree(dice, &body);
    refusals_agree(&body, &encode(&dice.trace(2, hit_cycles)), hit_cycles);
    files_agree(dice, &body);
    (settlings + waiting, refused)
}

/// How many traces were compared, and how many of the three that the round begins with are refused with 17: about one in nine.
fn one_round(seed: u64) -> (u64, u64) {
    let mut dice = Dice(seed.wrapping_mul(0x9e3779b97f4a7c15) | 1);
    let refused = known_agree(&mut dice);
    let (traces, unknown_refused) = unknown_agree(&mut dice);
    whole_jobs_agree(&mut dice);
    (traces + 2, refused + unknown_refused as u64)
}

/// Rounds from the seed on, on every processor, until the time is over; how many, and the sums of what each counts.
fn rounds(first: u64, seconds: u64) -> (u64, u64, u64) {
    let end = Instant::now() + Duration::from_secs(seconds);
    let (next, traces, refused) = (AtomicU64::new(0), AtomicU64::new(0), AtomicU64::new(0));
    let work = || loop {
        let seed = first.wrapping_add(next.fetch_add(1, Ordering::Relaxed));
        match std::panic::catch_unwind(|| one_round(seed)) {
            Ok((compared, long_hits)) => {
                traces.fetch_add(compared, Ordering::Relaxed);
                refused.fetch_add(long_hits, Ordering::Relaxed);
            }
            Err(cause) => {
                eprintln!("differs in the first round of SIC_SEED={seed}");
                std::panic::resume_unwind(cause);
            }
        }
        if Instant::now() >= end {
            break;
        }
    };
    std::thread::scope(|scope| {
        for _ in 0..std::thread::available_parallelism().map_or(1, |n| n.get()) {
            scope.spawn(work);
        }
    });
    (next.into_inner(), traces.into_inner(), refused.into_inner())
}

#[test]
fn random_rounds() {
    let given = |name: &str| std::env::var(name).ok().and_then(|v| v.parse::<u64>().ok());
    let now = SystemTime::now().duration_since(UNIX_EPOCH).unwrap().as_nanos() as u64;
    let first = given("SIC_SEED").unwrap_or(now);
    let (rounds, traces, refused) = rounds(first, given("SIC_SECONDS").unwrap_or(5));
    println!("{rounds} rounds from SIC_SEED={first}: {traces} traces, {} states, {} files, {} jobs", 8 * rounds, 4 * rounds, 2 * rounds);
    println!("{refused} of the {} traces that rounds begin with are refused with 17", 3 * rounds);
    assert!(rounds < 1000 || 0 < refused && refused < 3 * rounds);
}
