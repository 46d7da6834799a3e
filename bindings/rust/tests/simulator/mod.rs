//! The cycle rules and the checks a third time, in plain Rust: each instruction has a stage and a
//! count, every test looks at all older ones, and time goes cycle after cycle.
#![allow(dead_code)]
pub mod bus;
pub mod by_value;
pub mod dice;
pub mod job;

pub const PLAIN: u8 = 0;
pub const LOAD: u8 = 1;
pub const STORE: u8 = 2;
pub const BRANCH: u8 = 3;
pub const JUMP: u8 = 4;
pub const HIT: u8 = 0;
pub const MISS: u8 = 1;
pub const UNKNOWN: u8 = 2;

#[derive(Clone, Copy, Debug, PartialEq, Eq)]
pub struct Instruction {
    pub kind: u8,
    pub fetch: u8,
    pub access: u8,
    pub source1: u8,
    pub source2: u8,
    pub target: u8,
    pub execution: u8,
    pub fetch_latency: u16,
    pub data_latency: u16,
}

impl Instruction {
    pub fn bytes(&self) -> [u8; 10] {
        let f = self.fetch_latency.to_le_bytes();
        let d = self.data_latency.to_le_bytes();
        [self.kind, self.fetch | self.access << 2, self.source1, self.source2, self.target, self.execution, f[0], f[1], d[0], d[1]]
    }

    /// The nine fields in the record's order.
    pub fn fields(&self) -> [u32; 9] {
        let bytes = [self.kind, self.fetch, self.access, self.source1, self.source2, self.target, self.execution].map(u32::from);
        let [a, b, c, d, e, f, g] = bytes;
        [a, b, c, d, e, f, g, self.fetch_latency.into(), self.data_latency.into()]
    }

    fn read(b: &[u8]) -> Instruction {
        Instruction {
            kind: b[0],
            fetch: b[1] & 3,
            access: b[1] >> 2 & 3,
            source1: b[2],
            source2: b[3],
            target: b[4],
            execution: b[5],
            fetch_latency: u16::from_le_bytes([b[6], b[7]]),
            data_latency: u16::from_le_bytes([b[8], b[9]]),
        }
    }
}

pub fn encode(trace: &[Instruction]) -> Vec<u8> {
    trace.iter().flat_map(|i| i.bytes()).collect()
}

pub fn decode(body: &[u8]) -> Vec<Instruction> {
    body.chunks_exact(10).map(Instruction::read).collect()
}

fn lawful(b: &[u8]) -> bool {
    let i = Instruction::read(b);
    let memory = i.kind == LOAD || i.kind == STORE;
    i.kind <= JUMP
        && b[1] < 16
        && i.fetch != 3
        && i.access != 3
        && (memory || i.access == HIT)
        && i.source1 < 32
        && i.source2 < 32
        && i.target < 32
        && (i.target == 0 || i.kind != STORE && i.kind != BRANCH)
        && i.fetch_latency >= 1
        && (i.data_latency >= 1) == memory
}

/// 10, 8, or 0.
pub fn body_refusal(body: &[u8]) -> u32 {
    if body.len() % 10 != 0 || body.len() > 40960 {
        return 10;
    }
    if body.chunks_exact(10).all(lawful) {
        0
    } else {
        8
    }
}

/// 17, or 0, for the records of a body or of several: "h above 15, or a load or store whose data latency is not above h", whatever
/// its flag (document 02).
pub fn hit_refusal(records: &[u8], hit_cycles: u32) -> u32 {
    let too_short = |i: &Instruction| (i.kind == LOAD || i.kind == STORE) && i.data_latency as u32 <= hit_cycles;
    if hit_cycles > 15 || decode(records).iter().any(too_short) {
        17
    } else {
        0
    }
}

/// 10, 8, 17, or 0.
pub fn timed_refusal(body: &[u8], hit_cycles: u32) -> u32 {
    match body_refusal(body) {
        0 => hit_refusal(body, hit_cycles),
        n => n,
    }
}

/// 10, 8, 17, 11, or 0.
pub fn settled_refusal(body: &[u8], hit_cycles: u32) -> u32 {
    match timed_refusal(body, hit_cycles) {
        0 if decode(body).iter().any(|i| i.fetch == UNKNOWN || i.access == UNKNOWN) => 11,
        n => n,
    }
}

#[derive(Clone, Copy, Debug, PartialEq, Eq, PartialOrd, Ord)]
pub enum Stage {
    Pre,
    If,
    Id,
    Ex,
    Mem,
    St,
    Wb,
    Post,
}
use Stage::*;

#[derive(Clone, Copy, Debug, PartialEq, Eq)]
pub struct Place {
    pub stage: Stage,
    pub count: u32,
}

pub fn start(trace: &[Instruction]) -> Vec<Place> {
    vec![Place { stage: Pre, count: 0 }; trace.len()]
}

fn short_of(p: Place, stage: Stage) -> bool {
    p.stage < stage || p.stage == stage && p.count > 0
}

/// The following stage, in the order of the lines of stage' in Figure 5. "Stages run pre, IF, ID, EX, MEM, then ST for a store or WB for
/// any other kind, then post." The figure's nop is no kind of document 01; a jump "goes on through WB" (document 02, F-6).
fn next(i: &Instruction, stage: Stage) -> Stage {
    match (stage, i.kind) {
        // post after ST, where only a store ever stands
        (St, PLAIN) => Post,
        (St, LOAD) => Post,
        (St, STORE) => Post,
        (St, BRANCH) => Post,
        (St, JUMP) => Post,
        // post after WB, where a store never stands
        (Wb, PLAIN) => Post,
        (Wb, LOAD) => Post,
        (Wb, STORE) => Post,
        (Wb, BRANCH) => Post,
        (Wb, JUMP) => Post,
        // WB after MEM for what is no store
        (Mem, PLAIN) => Wb,
        (Mem, LOAD) => Wb,
        (Mem, BRANCH) => Wb,
        (Mem, JUMP) => Wb,
        // ST after MEM for a store
        (Mem, STORE) => St,
        // MEM after EX
        (Ex, PLAIN) => Mem,
        (Ex, LOAD) => Mem,
        (Ex, STORE) => Mem,
        (Ex, BRANCH) => Mem,
        (Ex, JUMP) => Mem,
        // EX after ID
        (Id, PLAIN) => Ex,
        (Id, LOAD) => Ex,
        (Id, STORE) => Ex,
        (Id, BRANCH) => Ex,
        (Id, JUMP) => Ex,
        // ID after IF
        (If, PLAIN) => Id,
        (If, LOAD) => Id,
        (If, STORE) => Id,
        (If, BRANCH) => Id,
        (If, JUMP) => Id,
        // IF after pre
        (Pre, PLAIN) => If,
        (Pre, LOAD) => If,
        (Pre, STORE) => If,
        (Pre, BRANCH) => If,
        (Pre, JUMP) => If,
        // the figure has no line for post: "an instruction in post stays there"
        (Post, PLAIN) => Post,
        (Post, LOAD) => Post,
        (Post, STORE) => Post,
        (Post, BRANCH) => Post,
        (Post, JUMP) => Post,
        (_, kind) => unreachable!("{kind} is no kind, and no accepted trace has it"),
    }
}

/// Document 01's counts on entry, and document 02's: "the count on entry to MEM for a load hit, and to ST for a store hit, becomes h".
fn entry(i: &Instruction, stage: Stage, hit_cycles: u32) -> u32 {
    match stage {
        If if i.fetch == MISS => i.fetch_latency as u32,
        Ex => i.execution as u32,
        Mem if i.kind == LOAD && i.access == MISS => i.data_latency as u32,
        Mem if i.kind == LOAD => hit_cycles,
        St if i.access == MISS => i.data_latency as u32 - 1,
        St => hit_cycles,
        _ => 0,
    }
}

/// Document 01's sentences on being ready, and document 02's: "a store waits in ID for its first source only, and in EX for its
/// second". In both stages it waits for an older load short of (MEM, 0), and for register 0 never. A jump "holds back later fetches
/// as a branch does, until it stands at (EX, 0)".
fn ready(trace: &[Instruction], places: &[Place], i: usize) -> bool {
    let me = &trace[i];
    let pending = |kind: u8, stage: Stage| (0..i).any(|j| trace[j].kind == kind && short_of(places[j], stage));
    let awaited = |source: u8| source != 0 && (0..i).any(|j| trace[j].kind == LOAD && trace[j].target == source && short_of(places[j], Mem));
    let store = me.kind == STORE;
    match places[i].stage {
        Pre if (0..i).any(|j| places[j].stage == Pre) || pending(BRANCH, Ex) || pending(JUMP, Ex) => false,
        Pre => me.fetch == HIT || !pending(LOAD, Mem) && !pending(STORE, St),
        Id => !awaited(me.source1) && (store || !awaited(me.source2)),
        Ex => (me.access != MISS || !pending(STORE, St)) && !(store && awaited(me.source2)),
        _ => true,
    }
}

/// Whether each instruction moves, once it is asked for.
struct Moving<'a> {
    trace: &'a [Instruction],
    places: &'a [Place],
    known: Vec<Option<bool>>,
}

impl Moving<'_> {
    fn moves(&mut self, i: usize) -> bool {
        if let Some(known) = self.known[i] {
            return known;
        }
        let p = self.places[i];
        let goes = p.stage != Post && p.count == 0 && ready(self.trace, self.places, i) && self.will_be_free(next(&self.trace[i], p.stage));
        self.known[i] = Some(goes);
        goes
    }

    fn will_be_free(&mut self, stage: Stage) -> bool {
        stage == Post || (0..self.trace.len()).all(|j| self.places[j].stage != stage || self.moves(j))
    }
}

pub fn cycle(trace: &[Instruction], places: &[Place], hit_cycles: u32) -> Vec<Place> {
    let mut moving = Moving { trace, places, known: vec![None; trace.len()] };
    let on = |i: usize| {
        let p = places[i];
        if moving.moves(i) {
            let stage = next(&trace[i], p.stage);
            Place { stage, count: entry(&trace[i], stage, hit_cycles) }
        } else {
            Place { stage: p.stage, count: p.count.saturating_sub(1) }
        }
    };
    (0..trace.len()).map(on).collect()
}

pub fn all_left(places: &[Place]) -> bool {
    places.iter().all(|p| p.stage == Post)
}

/// A slot of a state: an instruction's index and its count.
pub type Held = Option<(usize, u32)>;

/// How many are fetched, and what IF, ID, EX, MEM, ST and WB hold.
#[derive(Clone, Copy, Debug, PartialEq, Eq)]
pub struct Slots {
    pub fetched: usize,
    pub held: [Held; 6],
}

const SLOTS: [Stage; 6] = [If, Id, Ex, Mem, St, Wb];

pub fn slots_of(places: &[Place]) -> Slots {
    let held = SLOTS.map(|stage| places.iter().position(|p| p.stage == stage).map(|i| (i, places[i].count)));
    Slots { fetched: places.iter().filter(|p| p.stage != Pre).count(), held }
}

/// "Fetched instructions in no slot are post."
pub fn places_of(trace: &[Instruction], s: &Slots) -> Vec<Place> {
    let place = |i: usize| {
        let here = |h: &Held| matches!(h, Some((k, _)) if *k == i);
        match s.held.iter().position(here) {
            Some(at) => Place { stage: SLOTS[at], count: s.held[at].unwrap().1 },
            None if i < s.fetched => Place { stage: Post, count: 0 },
            None => Place { stage: Pre, count: 0 },
        }
    };
    (0..trace.len()).map(place).collect()
}

/// Document 01's sentence on orderly states; its clause on empty slots is left out, since an empty slot has no index or count here.
pub fn orderly(trace: &[Instruction], s: &Slots, hit_cycles: u32) -> bool {
    if s.fetched > trace.len() || s.held.iter().flatten().any(|h| h.0 >= trace.len()) {
        return false;
    }
    let within = |at: usize, (i, count): (usize, u32)| count <= entry(&trace[i], SLOTS[at], hit_cycles);
    let young: Vec<usize> = s.held[..4].iter().flatten().map(|h| h.0).collect();
    let m = young.len();
    m <= s.fetched
        && young == (s.fetched - m..s.fetched).rev().collect::<Vec<_>>()
        && s.held[5].map_or(true, |(i, _)| i + m + 1 == s.fetched && trace[i].kind != STORE)
        && s.held[4].map_or(true, |(i, _)| i + m < s.fetched && trace[i].kind == STORE)
        && (0..6).all(|at| s.held[at].map_or(true, |h| within(at, h)))
}

/// Every row from the start to the first after which all have left.
pub fn rows(trace: &[Instruction], hit_cycles: u32) -> Vec<Vec<Place>> {
    let mut rows = vec![start(trace)];
    while !all_left(rows.last().unwrap()) {
        let row = cycle(trace, rows.last().unwrap(), hit_cycles);
        rows.push(row);
    }
    rows
}

pub fn finish(trace: &[Instruction], hit_cycles: u32) -> u32 {
    let mut places = start(trace);
    let mut cycles = 0;
    while !all_left(&places) {
        places = cycle(trace, &places, hit_cycles);
        cycles += 1;
    }
    cycles
}

pub fn unknowns(trace: &[Instruction]) -> u32 {
    trace.iter().map(|i| (i.fetch == UNKNOWN) as u32 + (i.access == UNKNOWN) as u32).sum()
}

/// The settling in which the unknown flags are misses where `choice` has a bit.
pub fn settle(trace: &[Instruction], mut choice: u32) -> Vec<Instruction> {
    let mut flag = |f: u8| {
        if f != UNKNOWN {
            return f;
        }
        let bit = choice & 1;
        choice >>= 1;
        bit as u8
    };
    trace.iter().map(|i| Instruction { fetch: flag(i.fetch), access: flag(i.access), ..*i }).collect()
}

/// The finishing time of each settling, run cycle after cycle.
pub fn settling_times(trace: &[Instruction], hit_cycles: u32) -> Vec<u32> {
    (0..1 << unknowns(trace)).map(|choice| finish(&settle(trace, choice), hit_cycles)).collect()
}

/// What Open answers: the refusal, and where the body is.
pub fn open(file: &[u8], trace: u32) -> Result<(usize, usize), u32> {
    let half = |at: usize| u16::from_le_bytes([file[at], file[at + 1]]) as usize;
    let word = |at: usize| u32::from_le_bytes([file[at], file[at + 1], file[at + 2], file[at + 3]]) as usize;
    if file.len() > 65536 {
        return Err(1);
    }
    if file.len() < 2 {
        return Err(2);
    }
    let traces = half(0);
    if traces > 16 {
        return Err(3);
    }
    if file.len() < 2 + 6 * traces {
        return Err(4);
    }
    let mut end = 2 + 6 * traces;
    let mut bodies = Vec::new();
    for t in 0..traces {
        let at = 2 + 6 * t;
        if half(at + 4) > 4096 {
            return Err(5);
        }
        if word(at) != end {
            return Err(6);
        }
        bodies.push((end, 10 * half(at + 4)));
        end += 10 * half(at + 4);
    }
    if file.len() != end {
        return Err(7);
    }
    if bodies.iter().any(|&(at, length)| body_refusal(&file[at..at + length]) == 8) {
        return Err(8);
    }
    bodies.get(trace as usize).copied().ok_or(9)
}

/// What Write makes, or its refusal.
pub fn write(counts: &[u16], records: &[u8], room: usize) -> Result<Vec<u8>, u32> {
    let sum: usize = counts.iter().map(|&c| c as usize).sum();
    let length = 2 + 6 * counts.len() + records.len();
    if counts.len() > 16 {
        return Err(3);
    }
    if counts.iter().any(|&c| c > 4096) {
        return Err(5);
    }
    if records.len() != 10 * sum {
        return Err(13);
    }
    if length > 65536 {
        return Err(1);
    }
    if !records.chunks_exact(10).all(lawful) {
        return Err(8);
    }
    if room < length {
        return Err(14);
    }
    let mut file = (counts.len() as u16).to_le_bytes().to_vec();
    let mut at = 2 + 6 * counts.len();
    for &c in counts {
        file.extend((at as u32).to_le_bytes());
        file.extend(c.to_le_bytes());
        at += 10 * c as usize;
    }
    file.extend(records);
    Ok(file)
}
