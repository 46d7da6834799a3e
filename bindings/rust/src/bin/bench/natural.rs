//! The engine's algorithms as one would write them in Rust, with the same checks and answers.
use sic::{Slot, State};

const LOAD: u8 = 1;
const STORE: u8 = 2;
const BRANCH: u8 = 3;
const JUMP: u8 = 4;

#[derive(Clone, Copy)]
struct Instruction {
    kind: u8,
    fetch: u8,
    access: u8,
    source1: u8,
    source2: u8,
    target: u8,
    execution: u32,
    fetch_latency: u32,
    data_latency: u32,
}

/// Always inlined, as is [`broken`]: left to the compiler they are called in some loops, and Rust takes up to twice as long.
#[inline(always)]
fn read(b: &[u8]) -> Instruction {
    Instruction {
        kind: b[0],
        fetch: b[1] & 3,
        access: b[1] >> 2 & 3,
        source1: b[2],
        source2: b[3],
        target: b[4],
        execution: b[5] as u32,
        fetch_latency: u16::from_le_bytes([b[6], b[7]]) as u32,
        data_latency: u16::from_le_bytes([b[8], b[9]]) as u32,
    }
}

impl Instruction {
    fn settled(self, to: u8) -> Instruction {
        let flag = |f: u8| if f > 1 { to } else { f };
        Instruction { fetch: flag(self.fetch), access: flag(self.access), ..self }
    }

    fn in_if(&self) -> u32 {
        if self.fetch == 1 {
            self.fetch_latency
        } else {
            0
        }
    }

    fn in_mem(&self, hit_cycles: u32) -> u32 {
        match (self.kind, self.access) {
            (LOAD, 1) => self.data_latency,
            (LOAD, _) => hit_cycles,
            _ => 0,
        }
    }

    fn in_last(&self, hit_cycles: u32) -> u32 {
        match (self.kind, self.access) {
            (STORE, 1) => self.data_latency - 1,
            (STORE, _) => hit_cycles,
            _ => 0,
        }
    }

    /// A store's second source is its value, which it needs only in EX. There neither the times nor a cycle ask for it: its load, if
    /// it is not done, keeps MEM busy (`ValueNeverDecides`).
    fn reads_in_id(&self, register: u8) -> bool {
        register != 0 && (self.source1 == register || self.kind != STORE && self.source2 == register)
    }
}

/// With `|`, by which all rules are tested: with `||` the branches are mispredicted, and Rust takes longer over long bodies.
#[inline(always)]
fn broken(b: &[u8]) -> bool {
    let i = read(b);
    let memory = (i.kind == LOAD) | (i.kind == STORE);
    (i.kind > JUMP)
        | (b[1] > if memory { 10 } else { 2 })
        | (i.fetch == 3)
        | (i.source1 > 31)
        | (i.source2 > 31)
        | (i.target > if (i.kind == STORE) | (i.kind == BRANCH) { 0 } else { 31 })
        | (i.fetch_latency == 0)
        | (memory == (i.data_latency == 0))
}

/// Of a record that keeps the rules: a load or store, which alone have a data latency above 0, whose latency is not above that of a hit.
fn too_short(b: &[u8], hit_cycles: u32) -> bool {
    (1..=hit_cycles).contains(&read(b).data_latency)
}

fn wrong_length(body: &[u8]) -> bool {
    body.len() % 10 != 0 || body.len() / 10 > 4096
}

pub fn check(body: &[u8]) -> Result<(), u32> {
    if wrong_length(body) {
        return Err(10);
    }
    if body.chunks_exact(10).any(broken) {
        return Err(8);
    }
    Ok(())
}

/// 8, 17, or 0 for records that are whole.
fn timed_records(records: &[u8], hit_cycles: u32) -> u32 {
    let mut refused = hit_cycles > 15;
    for b in records.chunks_exact(10) {
        if broken(b) {
            return 8;
        }
        refused |= too_short(b, hit_cycles);
    }
    17 * refused as u32
}

fn timed_check(body: &[u8], hit_cycles: u32) -> u32 {
    if wrong_length(body) {
        return 10;
    }
    timed_records(body, hit_cycles)
}

fn settled_check(body: &[u8], hit_cycles: u32) -> u32 {
    if wrong_length(body) {
        return 10;
    }
    let mut refused = hit_cycles > 15;
    let mut unknown = false;
    for b in body.chunks_exact(10) {
        if broken(b) {
            return 8;
        }
        refused |= too_short(b, hit_cycles);
        unknown |= b[1] & 2 != 0 || b[1] & 8 != 0;
    }
    if refused {
        return 17;
    }
    11 * unknown as u32
}

/// With the last branch or jump and the finish so far, as one would write it first; the engine's needs neither.
#[derive(Clone, Copy, Default)]
struct Window {
    id: u32,
    ex: u32,
    mem: u32,
    last: u32,
    branch_done: u32,
    load_done: u32,
    store_done: u32,
    load_target: u8,
    finish: u32,
}

/// When the instruction enters IF, ID, EX, MEM, its last stage and post.
fn times(w: &Window, i: &Instruction, hit_cycles: u32) -> [u32; 6] {
    let memory = if i.fetch == 0 { 0 } else { w.load_done.max(w.store_done) };
    let at_if = w.id.max(1).max(w.branch_done).max(memory);
    let at_id = (at_if + i.in_if() + 1).max(w.ex);
    let load = if i.reads_in_id(w.load_target) { w.load_done } else { 0 };
    let at_ex = (at_id + 1).max(w.mem).max(load);
    let store = if i.access == 1 { w.store_done } else { 0 };
    let at_mem = (at_ex + i.execution + 1).max(w.last).max(store);
    let busy = if i.kind == STORE { w.store_done } else { 0 };
    let at_last = (at_mem + i.in_mem(hit_cycles) + 1).max(busy);
    [at_if, at_id, at_ex, at_mem, at_last, at_last + i.in_last(hit_cycles) + 1]
}

/// A load is done when it enters WB, which is always free.
fn slide(w: &mut Window, i: &Instruction, e: &[u32; 6]) {
    [w.id, w.ex, w.mem, w.last] = [e[1], e[2], e[3], e[4]];
    w.load_target = 0;
    match i.kind {
        BRANCH | JUMP => w.branch_done = e[2] + i.execution + 1,
        LOAD => {
            w.load_done = e[4];
            w.load_target = i.target;
        }
        STORE => w.store_done = e[5],
        _ => {}
    }
    w.finish = w.finish.max(e[5]);
}

fn pass(body: &[u8], to: u8, hit_cycles: u32) -> u32 {
    let mut w = Window::default();
    for b in body.chunks_exact(10) {
        let i = read(b).settled(to);
        let e = times(&w, &i, hit_cycles);
        slide(&mut w, &i, &e);
    }
    w.finish
}

pub fn finish(body: &[u8], hit_cycles: u32) -> Result<u32, u32> {
    match settled_check(body, hit_cycles) {
        0 => Ok(pass(body, 0, hit_cycles)),
        n => Err(n),
    }
}

pub fn best_worst(body: &[u8], hit_cycles: u32) -> Result<(u32, u32), u32> {
    match timed_check(body, hit_cycles) {
        0 => Ok((pass(body, 0, hit_cycles), pass(body, 1, hit_cycles))),
        n => Err(n),
    }
}

pub fn margin(body: &[u8], deadline: u32, hit_cycles: u32) -> Result<i64, u32> {
    match timed_check(body, hit_cycles) {
        0 => Ok(deadline as i64 - pass(body, 1, hit_cycles) as i64),
        n => Err(n),
    }
}

/// How many accesses of a checked body are marked miss or unknown, and the longest latency of these.
fn counted(body: &[u8]) -> (u32, u32) {
    let (mut accesses, mut longest) = (0, 0);
    for i in body.chunks_exact(10).map(read) {
        for (flag, latency) in [(i.fetch, i.fetch_latency), (i.access, i.data_latency)] {
            if flag != 0 {
                accesses += 1;
                longest = longest.max(latency);
            }
        }
    }
    (accesses, longest)
}

pub fn bus_time(body: &[u8], wait: u16, hit_cycles: u32) -> Result<(u32, u32), u32> {
    match timed_check(body, hit_cycles) {
        0 => {}
        n => return Err(n),
    }
    let (accesses, longest) = counted(body);
    if longest + wait as u32 > 65535 {
        return Err(15);
    }
    Ok((accesses, pass(body, 1, hit_cycles) + accesses * wait as u32))
}

fn hold(slot: &mut Slot, k: usize, count: u32) {
    *slot = Slot { filled: true, index: k as u32, count };
}

pub fn run(body: &[u8], limit: u32, hit_cycles: u32) -> Result<(State, u32, bool), u32> {
    match settled_check(body, hit_cycles) {
        0 => {}
        n => return Err(n),
    }
    let mut w = Window::default();
    let mut s = State::start();
    for (k, b) in body.chunks_exact(10).enumerate() {
        let i = read(b);
        let e = times(&w, &i, hit_cycles);
        slide(&mut w, &i, &e);
        if limit < e[0] {
            break;
        }
        s.fetched += 1;
        if limit >= e[5] {
            continue;
        }
        if limit < e[1] {
            hold(&mut s.IF, k, i.in_if().saturating_sub(limit - e[0]));
        } else if limit < e[2] {
            hold(&mut s.ID, k, 0);
        } else if limit < e[3] {
            hold(&mut s.EX, k, i.execution.saturating_sub(limit - e[2]));
        } else if limit < e[4] {
            hold(&mut s.MEM, k, i.in_mem(hit_cycles).saturating_sub(limit - e[3]));
        } else if i.kind == STORE {
            hold(&mut s.ST, k, i.in_last(hit_cycles).saturating_sub(limit - e[4]));
        } else {
            hold(&mut s.WB, k, 0);
        }
    }
    Ok((s, limit.min(w.finish), w.finish <= limit))
}

fn at(body: &[u8], k: u32) -> Instruction {
    let at = 10 * k as usize;
    body.get(at..at + 10).map_or(read(&[0; 10]), read)
}

/// Whether it is still short of the place up to which others may wait for it.
fn pending(i: &Instruction, level: u32, count: u32) -> bool {
    let goal = match i.kind {
        LOAD => 4,
        STORE => 5,
        BRANCH | JUMP => 3,
        _ => 0,
    };
    level < goal || level == goal && count > 0
}

fn slots(s: &State) -> [Slot; 6] {
    [s.IF, s.ID, s.EX, s.MEM, s.ST, s.WB]
}

fn held_back(body: &[u8], s: &State, level: u32, k: u32) -> bool {
    let i = at(body, k);
    slots(s).iter().zip(1..).any(|(slot, l)| {
        let j = at(body, slot.index);
        slot.filled
            && slot.index < k
            && pending(&j, l, slot.count)
            && match level {
                0 => j.kind == BRANCH || j.kind == JUMP || i.fetch != 0,
                2 => j.kind == LOAD && i.reads_in_id(j.target),
                _ => j.kind == STORE && i.access == 1,
            }
    })
}

fn orderly(body: &[u8], s: &State, hit_cycles: u32) -> bool {
    let entry = |i: &Instruction, level: usize| match level {
        0 => i.in_if(),
        2 => i.execution,
        3 => i.in_mem(hit_cycles),
        4 => i.in_last(hit_cycles),
        _ => 0,
    };
    let mut younger = 0;
    let mut fine = s.fetched as usize <= body.len() / 10;
    for (level, slot) in slots(s).iter().enumerate() {
        if !slot.filled {
            fine &= slot.index == 0 && slot.count == 0;
            continue;
        }
        let i = at(body, slot.index);
        fine &= slot.count <= entry(&i, level);
        fine &= match level {
            4 => i.kind == STORE && (slot.index as u64) + younger < s.fetched as u64,
            5 => i.kind != STORE && slot.index as u64 + younger + 1 == s.fetched as u64,
            _ => slot.index as u64 + younger + 1 == s.fetched as u64,
        };
        younger += (level < 4) as u64;
    }
    fine
}

fn stay(slot: Slot, gone: bool) -> Slot {
    if !slot.filled || gone {
        return Slot::default();
    }
    Slot { count: slot.count.saturating_sub(1), ..slot }
}

/// One cycle of an orderly state of an accepted body.
pub fn cycle(body: &[u8], s: &State, hit_cycles: u32) -> State {
    let more = (s.fetched as usize) < body.len() / 10;
    let still = |slot: Slot| slot.filled && slot.count == 0;
    let st = still(s.ST);
    let wb = still(s.WB);
    let in_mem = at(body, s.MEM.index);
    let store = in_mem.kind == STORE;
    let mem = still(s.MEM) && if store { !s.ST.filled || st } else { !s.WB.filled || wb };
    let ex = still(s.EX) && (!s.MEM.filled || mem) && !held_back(body, s, 3, s.EX.index);
    let id = still(s.ID) && (!s.EX.filled || ex) && !held_back(body, s, 2, s.ID.index);
    let fe = still(s.IF) && (!s.ID.filled || id);
    let pre = more && (!s.IF.filled || fe) && !held_back(body, s, 0, s.fetched);
    let into = |comes: bool, index: u32, count: u32, old: Slot, gone: bool| if comes { Slot { filled: true, index, count } } else { stay(old, gone) };
    State {
        fetched: s.fetched + pre as u32,
        IF: into(pre, s.fetched, at(body, s.fetched).in_if(), s.IF, fe),
        ID: into(fe, s.IF.index, 0, s.ID, id),
        EX: into(id, s.ID.index, at(body, s.ID.index).execution, s.EX, ex),
        MEM: into(ex, s.EX.index, at(body, s.EX.index).in_mem(hit_cycles), s.MEM, mem),
        ST: into(mem && store, s.MEM.index, in_mem.in_last(hit_cycles), s.ST, st),
        WB: into(mem && !store, s.MEM.index, 0, s.WB, wb),
    }
}

pub fn step(body: &[u8], s: &State, hit_cycles: u32) -> Result<State, u32> {
    match settled_check(body, hit_cycles) {
        0 if orderly(body, s, hit_cycles) => Ok(cycle(body, s, hit_cycles)),
        0 => Err(12),
        n => Err(n),
    }
}

/// Whether nothing is left to do.
pub fn all_left(body: &[u8], s: &State) -> bool {
    s.fetched as usize == body.len() / 10 && slots(s).iter().all(|slot| !slot.filled)
}

/// Cycle after cycle, nothing checked: the state after at most `limit` cycles, and how many were run.
pub fn simulate(body: &[u8], limit: u32, hit_cycles: u32) -> (State, u32) {
    let mut s = State::start();
    let mut t = 0;
    while t < limit && !all_left(body, &s) {
        s = cycle(body, &s, hit_cycles);
        t += 1;
    }
    (s, t)
}

fn settled_body(body: &[u8], to: u8) -> Vec<u8> {
    let flag = |f: u8| if f > 1 { to } else { f };
    let mut settled = body.to_vec();
    for b in settled.chunks_exact_mut(10) {
        b[1] = flag(b[1] & 3) | flag(b[1] >> 2) << 2;
    }
    settled
}

pub fn best_worst_by_cycles(body: &[u8], hit_cycles: u32) -> (u32, u32) {
    let time = |to: u8| simulate(&settled_body(body, to), u32::MAX, hit_cycles).1;
    (time(0), time(1))
}

/// Where the body of a trace of a checked file starts and ends.
fn bounds(file: &[u8], trace: usize) -> std::ops::Range<usize> {
    let half = |at: usize| u16::from_le_bytes([file[at], file[at + 1]]) as usize;
    let at = 2 + 6 * trace;
    let start = half(at) + 65536 * half(at + 2);
    start..start + 10 * half(at + 4)
}

/// How many traces a file has whose table is in order, with bodies of whole records behind it.
fn check_table(file: &[u8]) -> Result<usize, u32> {
    if file.len() > 65536 {
        return Err(1);
    }
    let half = |at: usize| u16::from_le_bytes([file[at], file[at + 1]]) as usize;
    if file.len() < 2 {
        return Err(2);
    }
    let count = half(0);
    if count > 16 {
        return Err(3);
    }
    if file.len() < 2 + 6 * count {
        return Err(4);
    }
    let mut end = 2 + 6 * count;
    for t in 0..count {
        let at = 2 + 6 * t;
        if half(at + 4) > 4096 {
            return Err(5);
        }
        if half(at) + 65536 * half(at + 2) != end {
            return Err(6);
        }
        end += 10 * half(at + 4);
    }
    if file.len() != end {
        return Err(7);
    }
    Ok(count)
}

/// The records of all traces, so many, of a file whose table is in order.
fn all_records(file: &[u8], count: usize) -> &[u8] {
    &file[2 + 6 * count..]
}

pub fn open(file: &[u8], trace: u32) -> Result<&[u8], u32> {
    let count = check_table(file)?;
    if all_records(file, count).chunks_exact(10).any(broken) {
        return Err(8);
    }
    if trace as usize >= count {
        return Err(9);
    }
    Ok(&file[bounds(file, trace as usize)])
}

pub fn worst_times(file: &[u8], times: &mut [u32], hit_cycles: u32) -> Result<usize, u32> {
    let count = check_table(file)?;
    match timed_records(all_records(file, count), hit_cycles) {
        0 => {}
        n => return Err(n),
    }
    if times.len() < count {
        return Err(16);
    }
    for (t, time) in times.iter_mut().enumerate().take(count) {
        *time = pass(&file[bounds(file, t)], 1, hit_cycles);
    }
    Ok(count)
}
