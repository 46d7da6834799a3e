//! The worked cases and every refusal through the library for other languages.
mod simulator;

use sic::{Refusal, State};
use simulator::*;

fn plain() -> Instruction {
    Instruction { kind: 0, fetch: HIT, access: HIT, source1: 0, source2: 0, target: 0, execution: 0, fetch_latency: 1, data_latency: 0 }
}

fn memory(kind: u8, access: u8, latency: u16) -> Instruction {
    Instruction { kind, access, data_latency: latency, ..plain() }
}

fn number<T: std::fmt::Debug>(r: Result<T, Refusal>) -> u32 {
    r.err().map_or(0, Refusal::number)
}

#[test]
fn a_to_l() {
    let load = memory(LOAD, MISS, 10);
    let hit = memory(LOAD, HIT, 1);
    let store = memory(STORE, MISS, 10);
    let late = |latency| Instruction { fetch: MISS, fetch_latency: latency, ..plain() };
    let cases: [(&str, Vec<Instruction>, u32); 11] = [
        ("A", vec![], 0),
        ("B", vec![plain()], 6),
        ("C", vec![load], 16),
        ("D", vec![Instruction { target: 1, ..hit }, Instruction { source1: 1, target: 2, ..plain() }], 8),
        ("E", vec![Instruction { kind: BRANCH, ..plain() }, plain()], 9),
        ("F", vec![hit, late(10)], 20),
        ("G", vec![load, plain()], 17),
        ("H", vec![load, late(1)], 21),
        ("I", vec![store], 15),
        ("J", vec![store, store], 26),
        ("K", vec![store, memory(STORE, HIT, 1)], 16),
    ];
    for (name, trace, time) in cases {
        assert_eq!(sic::finish(&encode(&trace), 0), Ok(time), "{name}");
        assert_eq!(finish(&trace, 0), time, "{name}");
    }
    let l = [memory(LOAD, UNKNOWN, 10), Instruction { fetch: UNKNOWN, ..plain() }];
    assert_eq!(sic::best_worst(&encode(&l), 0), Ok(sic::BestAndWorst { best: 7, worst: 21 }));
}

/// "A store waits in ID for its first source only, and in EX for its second": document 02, F-3.
#[test]
fn a_stores_value_is_needed_late() {
    let into = |target, load: Instruction| Instruction { target, ..load };
    let from = |source1, source2, i: Instruction| Instruction { source1, source2, ..i };
    let load = memory(LOAD, MISS, 10);
    let store = memory(STORE, HIT, 1);
    let branch = Instruction { kind: BRANCH, ..plain() };
    let cases: [(&str, [Instruction; 2], u32); 9] = [
        ("its value", [into(1, load), from(0, 1, store)], 17),
        ("a hit, then a miss", [into(1, memory(LOAD, HIT, 1)), from(0, 1, memory(STORE, MISS, 10))], 16),
        ("its first source", [into(1, load), from(1, 0, store)], 18),
        ("both", [into(1, load), from(1, 1, store)], 18),
        ("neither", [into(1, load), from(0, 2, store)], 17),
        ("register 0", [load, store], 17),
        ("a plain one", [into(1, load), from(0, 1, plain())], 18),
        ("a load", [into(1, load), from(0, 1, into(2, memory(LOAD, HIT, 1)))], 18),
        ("a branch", [into(1, load), from(0, 1, branch)], 18),
    ];
    for (name, trace, time) in cases {
        assert_eq!(sic::finish(&encode(&trace), 0), Ok(time), "{name}");
        assert_eq!(finish(&trace, 0), time, "{name}");
    }
}

/// A jump "holds back later fetches as a branch does, until it stands at (EX, 0), and goes on through WB": document 02, F-6. Nothing
/// waits for its target.
#[test]
fn a_jump_holds_back_fetches() {
    let into = |target, i: Instruction| Instruction { target, ..i };
    let from = |source1, source2, i: Instruction| Instruction { source1, source2, ..i };
    let late = |latency| Instruction { fetch: MISS, fetch_latency: latency, ..plain() };
    let jump = Instruction { kind: JUMP, ..plain() };
    let slow = Instruction { execution: 2, ..jump };
    let (hit, load, store) = (memory(LOAD, HIT, 1), memory(LOAD, MISS, 10), memory(STORE, MISS, 10));
    let cases: [(&str, Vec<Instruction>, u32); 16] = [
        ("alone", vec![into(31, jump)], 6),
        ("a plain one before it", vec![plain(), jump], 7),
        ("a plain one behind it", vec![jump, plain()], 9),
        ("with execution latency 2", vec![slow, plain()], 11),
        ("two jumps and a plain one", vec![jump, jump, plain()], 12),
        ("its target is read", vec![into(5, jump), from(5, 0, plain())], 9),
        ("a missed fetch behind it", vec![jump, late(10)], 19),
        ("a store hit behind it", vec![jump, memory(STORE, HIT, 1)], 9),
        ("a missed store behind it", vec![jump, store], 18),
        ("a missed store before it", vec![store, jump, plain()], 15),
        ("a missed store before it, a missed fetch behind it", vec![store, jump, late(1)], 21),
        ("it reads a load", vec![into(1, hit), from(1, 0, jump)], 8),
        ("it reads a load, and a plain one is behind it", vec![into(1, hit), from(1, 0, jump), plain()], 11),
        ("its second source is a missed load", vec![into(1, load), from(0, 1, jump)], 18),
        ("a load and what needs it behind it", vec![jump, into(1, load), from(1, 0, plain())], 21),
        ("its target is a load's too", vec![into(1, load), into(1, jump), from(1, 0, plain())], 18),
    ];
    for (name, trace, time) in cases {
        assert_eq!(sic::finish(&encode(&trace), 0), Ok(time), "{name}");
        assert_eq!(finish(&trace, 0), time, "{name}");
    }
}

/// "Kind 4, a jump, has data bits and data latency 0 and may have a target": document 02, F-6. There is no kind 5, and a branch has no
/// target.
#[test]
fn records_of_jumps() {
    let jump = Instruction { kind: JUMP, ..plain() };
    let target = |target| Instruction { target, ..jump };
    let good = [jump, target(1), target(31), Instruction { source1: 31, source2: 31, execution: 255, fetch: UNKNOWN, ..jump }];
    let access = |access| Instruction { access, ..jump };
    let branch = Instruction { kind: BRANCH, target: 1, ..plain() };
    let bad = [target(32), access(MISS), access(UNKNOWN), Instruction { data_latency: 1, ..jump }, Instruction { kind: 5, ..plain() }, branch];
    for i in good {
        assert_eq!((number(sic::View::new(&i.bytes())), body_refusal(&i.bytes())), (0, 0), "{i:?}");
    }
    for i in bad {
        assert_eq!((number(sic::View::new(&i.bytes())), body_refusal(&i.bytes())), (8, 8), "{i:?}");
    }
}

#[test]
fn margins_and_limits_of_b() {
    let b = encode(&[plain()]);
    for (deadline, margin) in [(5, -1), (6, 0), (7, 1), (0, -6), (u32::MAX, 4294967289)] {
        assert_eq!(sic::margin(&b, deadline, 0), Ok(margin));
    }
    for (limit, cycles, left) in [(0, 0, false), (5, 5, false), (6, 6, true), (7, 6, true), (u32::MAX, 6, true)] {
        let run = sic::run(&b, limit, 0).unwrap();
        assert_eq!((run.cycles, run.left), (cycles, left));
    }
}

fn bus_time(trace: &[Instruction], wait: u16) -> Result<(u32, u32), u32> {
    sic::bus_time(&encode(trace), wait, 0).map(|b| (b.accesses, b.time)).map_err(Refusal::number)
}

/// Every access that document 02 counts, one at a time: fetches of each kind, and the data accesses of loads and stores.
fn one_access(flag: u8, latency: u16) -> Vec<Instruction> {
    let fetch = |i: Instruction| Instruction { fetch: flag, fetch_latency: latency, ..i };
    let others = [PLAIN, BRANCH, JUMP].map(|kind| Instruction { kind, ..plain() });
    let each = others.into_iter().chain([LOAD, STORE].map(|kind| memory(kind, HIT, 1)));
    each.map(fetch).chain([memory(LOAD, flag, latency), memory(STORE, flag, latency)]).collect()
}

#[test]
fn bus_times_at_their_borders() {
    assert_eq!(bus_time(&[], 0), Ok((0, 0)));
    assert_eq!(bus_time(&[], u16::MAX), Ok((0, 0)));
    assert_eq!(bus_time(&[plain()], u16::MAX), Ok((0, 6)));
    for access in [MISS, UNKNOWN].into_iter().flat_map(|flag| one_access(flag, 1)) {
        let worst = sic::best_worst(&encode(&[access]), 0).unwrap().worst;
        assert_eq!(bus_time(&[access], 0), Ok((1, worst)), "{access:?}");
        assert_eq!(bus_time(&[access], 65534), Ok((1, worst + 65534)), "{access:?}");
        assert_eq!(bus_time(&[access], 65535), Err(15), "{access:?}");
    }
    for access in [MISS, UNKNOWN].into_iter().flat_map(|flag| one_access(flag, 65535)) {
        assert_eq!(bus_time(&[access], 0).map(|t| t.0), Ok(1), "{access:?}");
        assert_eq!(bus_time(&[access], 1), Err(15), "{access:?}");
    }
    for hit in one_access(HIT, 65535) {
        assert_eq!(bus_time(&[hit], 65535), Ok((0, sic::finish(&encode(&[hit]), 0).unwrap())), "{hit:?}");
    }
}

/// The worst times are those of document 01's cases. In `long` the last instruction is the one that 15 is about.
#[test]
fn bus_times_of_traces() {
    let store = memory(STORE, MISS, 10);
    let l = [memory(LOAD, UNKNOWN, 10), Instruction { fetch: UNKNOWN, ..plain() }];
    assert_eq!(bus_time(&[memory(LOAD, MISS, 10), plain()], 100), Ok((1, 17 + 100)));
    assert_eq!(bus_time(&[store, store], 100), Ok((2, 26 + 200)));
    assert_eq!(bus_time(&[store, memory(STORE, HIT, 65535)], 100), Ok((1, 16 + 100)));
    assert_eq!(bus_time(&l, 100), Ok((2, 21 + 200)));
    let late = Instruction { fetch: UNKNOWN, fetch_latency: 65000, ..plain() };
    let mut long = vec![plain(); 4095];
    long.push(late);
    assert_eq!(bus_time(&long, 535), Ok((1, 4096 + 5 + 65000 + 535)));
    assert_eq!(bus_time(&long, 536), Err(15));
    let most = vec![Instruction { fetch: UNKNOWN, ..memory(LOAD, MISS, 1) }; 4096];
    assert_eq!(bus_time(&most, 65534).map(|t| t.0), Ok(8192));
}

#[test]
fn bus_times_refuse_10_then_8_then_15() {
    let long = Instruction { fetch: MISS, fetch_latency: 65535, ..plain() };
    let mut body = encode(&[long, plain()]);
    assert_eq!(number(sic::bus_time(&body, 1, 0)), 15);
    body[10] = 5;
    assert_eq!(number(sic::bus_time(&body, 1, 0)), 8);
    body.pop();
    assert_eq!(number(sic::bus_time(&body, 1, 0)), 10);
    let refused = unsafe { sic::raw::sic_bus_time(encode(&[long]).as_ptr(), 10, 1, 0) };
    assert_eq!((refused.refusal, refused.accesses, refused.time), (15, 0, 0));
}

/// The call on a list of so many places: the refusal, or how many are filled, and the list afterwards.
fn worst_times(file: &[u8], places: usize, hit_cycles: u32) -> (Result<usize, u32>, Vec<u32>) {
    let mut times = job::former(places);
    (sic::worst_times(file, &mut times, hit_cycles).map_err(Refusal::number), times)
}

/// B, C, an empty trace, L and I, with lists that are just long enough, longer, and too short.
#[test]
fn a_whole_job() {
    let l = [memory(LOAD, UNKNOWN, 10), Instruction { fetch: UNKNOWN, ..plain() }];
    let records = encode(&[&[plain(), memory(LOAD, MISS, 10)], &l[..], &[memory(STORE, MISS, 10)]].concat());
    let file = write(&[1, 1, 0, 2, 1], &records, 200).unwrap();
    for places in [5, 6, 8, 16, 100] {
        let (answer, times) = worst_times(&file, places, 0);
        assert_eq!(answer, Ok(5));
        assert_eq!(times[..5], [6, 16, 0, 21, 15]);
        assert_eq!(times[5..], job::former(places)[5..]);
    }
    for places in 0..5 {
        assert_eq!(worst_times(&file, places, 0), (Err(16), job::former(places)));
    }
    let refused = unsafe { sic::raw::sic_worst_times(file.as_ptr(), file.len(), job::former(4).as_mut_ptr(), 4, 0) };
    assert_eq!((refused.refusal, refused.traces), (16, 0));
}

#[test]
fn jobs_of_0_and_16_traces() {
    for places in [0, 1, 16] {
        assert_eq!(worst_times(&[0, 0], places, 0), (Ok(0), job::former(places)));
    }
    let bodies: Vec<Vec<u8>> = (0..16).map(|t| encode(&vec![plain(); t])).collect();
    let counts: Vec<u16> = (0..16).collect();
    let file = write(&counts, &bodies.concat(), 2000).unwrap();
    let alone: Vec<u32> = bodies.iter().map(|body| sic::best_worst(body, 0).unwrap().worst).collect();
    assert_eq!(worst_times(&file, 16, 0), (Ok(16), alone));
    assert_eq!(worst_times(&file, 15, 0), (Err(16), job::former(15)));
}

/// A file that Open declines, with lists that would be long enough for it and lists that would not: Open's number, and no
/// place altered.
#[test]
fn jobs_refuse_1_to_8_then_16() {
    let file = write(&[1, 0, 2], &encode(&[plain(); 3]), 100).unwrap();
    let mut broken = file.clone();
    *broken.last_mut().unwrap() = 1;
    let mut moved = file.clone();
    moved[8] += 1;
    let long = vec![0; 65537];
    let declined: [(&[u8], u32); 8] = [
        (&long, 1),
        (&file[..1], 2),
        (&[17, 0], 3),
        (&[1, 0, 8], 4),
        (&[1, 0, 8, 0, 0, 0, 1, 16], 5),
        (&moved, 6),
        (&file[..file.len() - 1], 7),
        (&broken, 8),
    ];
    for (file, number) in declined {
        assert_eq!(sic::open(file, 0).map_err(Refusal::number), Err(number));
        for places in [0, 2, 3, 20] {
            assert_eq!(worst_times(file, places, 0), (Err(number), job::former(places)));
        }
    }
    assert_eq!(worst_times(&file, 2, 0).0, Err(16));
}

/// Each trace with data hits of 0, 3 and 15 cycles. "The count on entry to MEM for a load hit, and to ST for a store hit, becomes
/// h": document 02, F-4.
#[test]
fn data_hits_that_take_cycles() {
    let (load, store) = (memory(LOAD, HIT, 20), memory(STORE, HIT, 20));
    let from_1 = Instruction { source1: 1, ..plain() };
    let late = Instruction { fetch: MISS, fetch_latency: 10, ..plain() };
    let cases: [(&str, Vec<Instruction>, [u32; 3]); 9] = [
        ("a load and what needs it", vec![Instruction { target: 1, ..load }, from_1], [8, 11, 23]),
        ("two stores", vec![store, store], [7, 13, 37]),
        ("a store, then a load", vec![store, load], [7, 10, 22]),
        ("a load, then a store", vec![load, store], [7, 13, 37]),
        ("a store, then a plain one", vec![store, plain()], [7, 9, 21]),
        ("a load, then a missed fetch", vec![load, late], [20, 23, 35]),
        ("a missed load", vec![memory(LOAD, MISS, 20)], [26, 26, 26]),
        ("a missed store, then a hit", vec![memory(STORE, MISS, 20), store], [26, 29, 41]),
        ("neither load nor store", vec![plain(), Instruction { kind: BRANCH, ..plain() }, Instruction { kind: JUMP, ..plain() }], [10, 10, 10]),
    ];
    for (name, trace, times) in cases {
        for (hit_cycles, time) in [0, 3, 15].into_iter().zip(times) {
            assert_eq!(sic::finish(&encode(&trace), hit_cycles), Ok(time), "{name}, hits of {hit_cycles}");
            assert_eq!(finish(&trace, hit_cycles), time, "{name}, hits of {hit_cycles}");
        }
    }
}

/// A load unknown and a store hit, which finish after 13 cycles where the load hits with 3, and after 30 where it misses with 20.
#[test]
fn every_call_counts_the_cycles_of_a_hit() {
    let body = encode(&[memory(LOAD, UNKNOWN, 20), memory(STORE, HIT, 20)]);
    let hit = encode(&[memory(LOAD, HIT, 20), memory(STORE, HIT, 20)]);
    assert_eq!(sic::best_worst(&body, 3), Ok(sic::BestAndWorst { best: 13, worst: 30 }));
    assert_eq!(sic::margin(&body, 29, 3), Ok(-1));
    assert_eq!(sic::bus_time(&body, 100, 3), Ok(sic::TimeOnBus { accesses: 1, time: 130 }));
    assert_eq!(sic::run(&hit, 12, 3).map(|r| (r.cycles, r.left, r.state.ST.count)), Ok((12, false, 0)));
    assert_eq!(sic::run(&hit, u32::MAX, 3).map(|r| (r.cycles, r.left)), Ok((13, true)));
    assert_eq!(sic::alike(&hit, &encode(&[plain(); 2]), 0), Ok(true));
    assert_eq!(sic::alike(&hit, &encode(&[plain(); 2]), 3), Ok(false));
    assert_eq!(sic::alike(&hit, &encode(&[plain(); 8]), 3), Ok(true));
    let file = write(&[2, 2], &[&body[..], &hit].concat(), 100).unwrap();
    let (answer, times) = worst_times(&file, 3, 3);
    assert_eq!((answer, &times[..2], times[2]), (Ok(2), &[30, 13][..], job::former(3)[2]));
}

/// What each form of Step answers, which must be the same.
fn stepped(body: &[u8], state: State, hit_cycles: u32) -> Result<State, u32> {
    let (refusal, after) = by_value::step(body, state, hit_cycles);
    let mut own = state;
    assert_eq!((number(own.advance(body, hit_cycles)), own), (refusal, after));
    let answer = sic::step(body, state, hit_cycles).map_err(Refusal::number);
    assert_eq!(answer, if refusal == 0 { Ok(after) } else { Err(refusal) });
    answer
}

/// A load alone in MEM and a store alone in ST, with the count on entry, which falls, and with one more. A miss has its own
/// count, and what is no such access has none.
#[test]
fn a_state_is_judged_by_the_cycles_of_a_hit() {
    let held = |count| sic::Slot { filled: true, index: 0, count };
    let in_mem = |count| State { fetched: 1, MEM: held(count), ..State::start() };
    let in_st = |count| State { fetched: 1, ST: held(count), ..State::start() };
    for h in 0..=15 {
        for (kind, access, mem, st) in [(LOAD, HIT, h, 0), (STORE, HIT, 0, h), (LOAD, MISS, 20, 0), (STORE, MISS, 0, 19)] {
            let i = memory(kind, access, 20);
            let body = encode(&[i]);
            assert_eq!(stepped(&body, in_mem(mem + 1), h), Err(12), "{i:?}, hits of {h}");
            assert_eq!(stepped(&body, in_mem(mem), h).map(|s| s.MEM.filled), Ok(mem > 0), "{i:?}, hits of {h}");
            if kind == STORE {
                assert_eq!(stepped(&body, in_st(st + 1), h), Err(12), "{i:?}, hits of {h}");
                assert_eq!(stepped(&body, in_st(st), h).map(|s| s.ST.filled), Ok(st > 0), "{i:?}, hits of {h}");
            }
        }
        assert_eq!(stepped(&encode(&[plain()]), in_mem(1), h), Err(12));
    }
}

/// A jump stands in every slot but ST, which holds stores, and has a count in EX alone, where its fetch hits.
#[test]
fn a_state_holds_a_jump() {
    let body = encode(&[Instruction { kind: JUMP, target: 1, execution: 2, ..plain() }]);
    let held = |count| sic::Slot { filled: true, index: 0, count };
    let fetched = State { fetched: 1, ..State::start() };
    for h in [0, 15] {
        assert_eq!(stepped(&body, State { IF: held(0), ..fetched }, h), Ok(State { ID: held(0), ..fetched }), "hits of {h}");
        assert_eq!(stepped(&body, State { ID: held(0), ..fetched }, h), Ok(State { EX: held(2), ..fetched }), "hits of {h}");
        assert_eq!(stepped(&body, State { EX: held(2), ..fetched }, h), Ok(State { EX: held(1), ..fetched }), "hits of {h}");
        assert_eq!(stepped(&body, State { EX: held(0), ..fetched }, h), Ok(State { MEM: held(0), ..fetched }), "hits of {h}");
        assert_eq!(stepped(&body, State { MEM: held(0), ..fetched }, h), Ok(State { WB: held(0), ..fetched }), "hits of {h}");
        assert_eq!(stepped(&body, State { WB: held(0), ..fetched }, h), Ok(fetched), "hits of {h}");
        let counts = [State { IF: held(1), ..fetched }, State { ID: held(1), ..fetched }, State { EX: held(3), ..fetched }];
        for state in counts.into_iter().chain([State { MEM: held(1), ..fetched }, State { ST: held(0), ..fetched }]) {
            assert_eq!(stepped(&body, state, h), Err(12), "{state:?}, hits of {h}");
        }
    }
}

/// "h above 15, or a load or store whose data latency is not above h", whatever its flag, wherever it stands.
#[test]
fn hits_as_long_as_misses() {
    for (kind, flag) in [LOAD, STORE].into_iter().flat_map(|kind| [HIT, MISS, UNKNOWN].map(|flag| (kind, flag))) {
        let settled = if flag == UNKNOWN { 11 } else { 0 };
        for h in 1..=15 {
            for at in 0..3 {
                let mut trace = vec![plain(), memory(LOAD, HIT, 65535), memory(STORE, MISS, 16)];
                trace[at] = memory(kind, flag, h);
                refuse(&encode(&trace), h as u32, 17, 17);
                trace[at].data_latency += 1;
                refuse(&encode(&trace), h as u32, 0, settled);
            }
        }
        refuse(&encode(&[memory(kind, flag, 1)]), 0, 0, settled);
        refuse(&encode(&[memory(kind, flag, 65535)]), 16, 17, 17);
    }
    let others = [PLAIN, BRANCH, JUMP].map(|kind| Instruction { kind, ..plain() });
    for body in [encode(&[]), encode(&others)] {
        refuse(&body, 15, 0, 0);
        refuse(&body, 16, 17, 17);
        refuse(&body, u32::MAX, 17, 17);
    }
}

/// 8, 17, 11, 12 of Step, and 8, 17, 15 on a bus: what is refused first is put right, and the next is refused.
#[test]
fn long_hits_are_refused_after_8_and_before_the_rest() {
    let mut body = encode(&[memory(LOAD, UNKNOWN, 3), plain()]);
    let state = State { fetched: 3, ..State::start() };
    body[10] = 5;
    assert_eq!((stepped(&body, state, 3), number(sic::bus_time(&body, 65535, 3))), (Err(8), 8));
    body[10] = 0;
    assert_eq!((stepped(&body, state, 3), number(sic::bus_time(&body, 65535, 3))), (Err(17), 17));
    body[8] = 4;
    assert_eq!((stepped(&body, state, 3), number(sic::bus_time(&body, 65535, 3))), (Err(11), 15));
    body[1] = HIT;
    assert_eq!((stepped(&body, state, 3), number(sic::bus_time(&body, 65535, 3))), (Err(12), 0));
    assert_eq!(number(sic::step(&body, State::start(), 3)), 0);
}

/// 8, 17, 16 of a job, and 8, 17 of a report, whichever trace it is; the list stays as it is.
#[test]
fn long_hits_in_files() {
    let first = [memory(STORE, UNKNOWN, 3), plain(), memory(LOAD, HIT, 9)];
    let last = [memory(LOAD, HIT, 9), plain(), memory(STORE, UNKNOWN, 3)];
    for trace in [first, last] {
        let mut file = write(&[1, 0, 2], &encode(&trace), 100).unwrap();
        let refused = |file: &[u8], hit_cycles| {
            let answers = [0, 2, 3, 20].map(|places| worst_times(file, places, hit_cycles));
            let kept = answers.iter().all(|(answer, list)| answer.is_ok() || *list == job::former(list.len()));
            assert!(kept, "{answers:?}");
            (answers.map(|(answer, _)| answer.err().unwrap_or(0)), number(sic::report(file, &[7], hit_cycles)))
        };
        assert_eq!(refused(&file, 2), ([16, 16, 0, 0], 0));
        assert_eq!(refused(&file, 3), ([17; 4], 17));
        assert_eq!(refused(&file, 16), ([17; 4], 17));
        file[20] = 5;
        assert_eq!(refused(&file, 16), ([8; 4], 8));
    }
    assert_eq!(worst_times(&[0, 0], 0, 15), (Ok(0), vec![]));
    assert_eq!(worst_times(&[0, 0], 1, 16), (Err(17), job::former(1)));
    assert_eq!(number(sic::report(&[0, 0], &[7], 16)), 17);
}

/// What each call refuses of a body: the number where unknown flags are taken, and where they are not. The second of two bodies is
/// judged only where the first, of a plain instruction, is not refused.
fn refuse(body: &[u8], hit_cycles: u32, timed: u32, settled: u32) {
    let good = encode(&[plain()]);
    let mut state = State::start();
    assert_eq!(number(sic::best_worst(body, hit_cycles)), timed);
    assert_eq!(number(sic::margin(body, 7, hit_cycles)), timed);
    assert_eq!(number(sic::bus_time(body, 7, hit_cycles)), timed);
    assert_eq!(number(sic::finish(body, hit_cycles)), settled);
    assert_eq!(number(sic::run(body, 7, hit_cycles)), settled);
    assert_eq!(number(sic::step(body, state, hit_cycles)), settled);
    assert_eq!(by_value::step(body, state, hit_cycles).0, settled);
    assert_eq!(number(state.advance(body, hit_cycles)), settled);
    assert_eq!(number(sic::alike(body, &good, hit_cycles)), settled);
    assert_eq!(number(sic::alike(&good, body, hit_cycles)), if hit_cycles > 15 { 17 } else { settled });
}

#[test]
fn refusals_of_bodies() {
    let good = encode(&[plain(), memory(LOAD, MISS, 3)]);
    let unknown = encode(&[memory(LOAD, UNKNOWN, 3)]);
    let mut broken = [&unknown[..], &good].concat();
    broken[10] = 5;
    let long = vec![0; 40970];
    for (body, checked, settled) in [(&good, 0, 0), (&unknown, 0, 11), (&broken, 8, 8), (&good[..19].to_vec(), 10, 10), (&long, 10, 10)] {
        assert_eq!(number(sic::View::new(body)), checked);
        refuse(body, 2, checked, settled);
        for hit_cycles in [3, 15, 16, u32::MAX] {
            let timed = if checked == 0 { 17 } else { checked };
            refuse(body, hit_cycles, timed, timed);
        }
    }
    assert_eq!(number(sic::alike(&broken, &unknown, 2)), 8);
    assert_eq!(number(sic::alike(&unknown, &broken, 2)), 11);
    assert_eq!(number(sic::alike(&unknown, &broken, 3)), 17);
    assert_eq!(number(sic::alike(&encode(&[memory(LOAD, UNKNOWN, 4)]), &good, 3)), 11);
}

#[test]
fn a_refused_step_keeps_the_state() {
    let body = encode(&[plain()]);
    let mut state = State { fetched: 2, ..State::start() };
    let before = state;
    assert_eq!(state.advance(&body, 0), Err(Refusal::NotOrderly));
    assert_eq!(state, before);
    assert_eq!(number(sic::step(&body, state, 0)), 12);
    assert_eq!(by_value::step(&body, state, 0), (12, before));
}

/// D from each of its rows, its last one twice, whole and cut short: in place the same number and state as by value.
#[test]
fn a_step_in_place_is_the_step_by_value() {
    let d = encode(&[Instruction { target: 1, ..memory(LOAD, HIT, 1) }, Instruction { source1: 1, target: 2, ..plain() }]);
    for (cycle, length) in (0..10).flat_map(|cycle| [20, 10, 9].map(|length| (cycle, length))) {
        let row = sic::run(&d, cycle, 0).unwrap().state;
        let mut state = row;
        let refusal = number(state.advance(&d[..length], 0));
        assert_eq!((refusal, state), by_value::step(&d[..length], row, 0), "{length} bytes, row {cycle}");
        match (length, row.fetched) {
            (20, _) => assert_eq!((refusal, state), (0, sic::run(&d, cycle + 1, 0).unwrap().state)),
            (10, 2) => assert_eq!((refusal, state), (12, row)),
            (10, _) => assert_eq!(refusal, 0),
            _ => assert_eq!((refusal, state), (10, row)),
        }
    }
}

#[test]
fn views_read_any_bytes() {
    let bytes: Vec<u8> = (0..25).collect();
    assert_eq!(number(sic::View::new(&bytes)), 10);
    let read = sic::record_at(&bytes, 1).unwrap();
    assert_eq!((read.kind, read.fetch, read.access, read.target), (10, 3, 2, 14));
    assert_eq!((read.fetch_latency, read.data_latency), (16 + 17 * 256, 18 + 19 * 256));
    assert_eq!(number(sic::record_at(&bytes, 2)), 9);
    assert_eq!(number(sic::record_at(&[], 0)), 9);
}

#[test]
fn files_at_their_borders() {
    let file = write(&[1, 0, 2], &encode(&[plain(); 3]), 100).unwrap();
    assert_eq!(sic::open(&file, 2).map(|b| b.len()), Ok(20));
    assert_eq!(number(sic::open(&file, 3)), 9);
    assert_eq!(number(sic::open(&vec![0; 65537], 0)), 1);
    assert_eq!(number(sic::open(&[0], 0)), 2);
    assert_eq!(number(sic::open(&[17, 0], 0)), 3);
    assert_eq!(number(sic::open(&[1, 0, 8], 0)), 4);
    assert_eq!(number(sic::open(&[1, 0, 8, 0, 0, 0, 1, 16], 0)), 5);
    assert_eq!(number(sic::open(&[1, 0, 9, 0, 0, 0, 0, 0], 0)), 6);
    assert_eq!(number(sic::open(&[0, 0, 0], 0)), 7);
    assert_eq!(number(sic::open(&[0, 0], 0)), 9);
    let mut broken = file.clone();
    broken[20] = 5;
    assert_eq!(number(sic::open(&broken, 9)), 8);
}

#[test]
fn writing_at_its_borders() {
    let records = encode(&[plain(); 3]);
    let mut out = vec![7; 60];
    assert_eq!(sic::write(&[1, 0, 2], &records, &mut out), Ok(50));
    assert_eq!(out[..50], write(&[1, 0, 2], &records, 60).unwrap());
    assert_eq!(out[50..], [7; 10]);
    let kept = out.clone();
    assert_eq!(number(sic::write(&[0; 17], &records, &mut out)), 3);
    assert_eq!(number(sic::write(&[4097], &records, &mut out)), 5);
    assert_eq!(number(sic::write(&[4], &records, &mut out)), 13);
    assert_eq!(number(sic::write(&[4096, 2457], &vec![0; 65530], &mut out)), 1);
    assert_eq!(number(sic::write(&[3], &[9; 30], &mut out)), 8);
    assert_eq!(number(sic::write(&[1, 0, 2], &records, &mut out[..49])), 14);
    assert_eq!(out, kept);
}

#[test]
fn refusals_speak() {
    assert_eq!(Refusal::of(0), None);
    assert_eq!(Refusal::of(18), None);
    for n in 1..=17 {
        let refusal = Refusal::of(n).unwrap();
        assert_eq!(refusal.number(), n);
        assert!(refusal.to_string().starts_with(&format!("refused {n}: ")));
    }
}

#[test]
fn the_chart_of_d() {
    let body = encode(&[Instruction { target: 1, ..memory(LOAD, HIT, 1) }, Instruction { source1: 1, target: 2, ..plain() }]);
    let chart = sic::chart(&write(&[2], &body, 100).unwrap());
    assert!(chart.starts_with("cycle IF ID EX MEM ST WB\n0 - - - - - -\n1 0:0 - - - - -\n"));
    assert!(chart.ends_with("\n8 - - - - - -\nworst 8 best 8\n"));
    assert_eq!(sic::chart(&[]), "refused 2\n");
}

#[test]
fn a_report_has_a_line_for_each_trace() {
    let file = write(&[1, 2], &encode(&[plain(); 3]), 100).unwrap();
    let both = sic::report(&file, &[6, 6], 0).unwrap().unwrap();
    let lines: Vec<Vec<&str>> = both.lines().map(|l| l.split_whitespace().collect()).collect();
    assert_eq!(lines[0], ["margin", "trace", "instructions", "unknown", "best", "worst", "deadline"]);
    assert_eq!(lines[1], ["0", "0", "1", "0", "6", "6", "6"]);
    assert_eq!(lines[2], ["-1", "1", "2", "0", "7", "7", "6"]);
    assert_eq!(lines[3].join(" "), "1 of 2 deadlines met");
    assert_eq!(sic::report(&file, &[7], 0).unwrap(), sic::report(&file, &[7, 7], 0).unwrap());
    assert_eq!(sic::report(&file, &[7, 7, 7], 0), Ok(None));
    assert_eq!(sic::report(&file, &[], 0), Ok(None));
    assert_eq!(sic::report(&[0, 0], &[], 0).unwrap().unwrap().lines().last(), Some("0 of 0 deadlines met"));
    assert_eq!(number(sic::report(&file[1..], &[7], 0)), 3);
}

/// With 0 cycles nothing is said of them.
#[test]
fn a_report_tells_the_cycles_of_a_hit() {
    let file = write(&[1], &encode(&[memory(LOAD, HIT, 20)]), 100).unwrap();
    for (hit_cycles, margin) in [(0, "+10"), (1, "+9"), (15, "-5")] {
        let report = sic::report(&file, &[16], hit_cycles).unwrap().unwrap();
        let lines: Vec<&str> = report.lines().collect();
        assert_eq!(lines[1].split_whitespace().next(), Some(margin));
        let told = format!("cycles of a data hit: {hit_cycles}");
        let met = if hit_cycles == 15 { "0 of 1 deadlines met" } else { "1 of 1 deadlines met" };
        assert_eq!(lines[2..], if hit_cycles == 0 { vec![met] } else { vec![&told[..], met] });
    }
}
