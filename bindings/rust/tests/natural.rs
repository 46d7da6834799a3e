//! The Rust that the benchmark compares with answers as the engine does, whichever bodies it is given: the ratios compare like with
//! like.
#[path = "simulator/dice.rs"]
mod dice;
#[path = "../src/bin/bench/natural.rs"]
mod natural;
#[path = "../src/bin/bench/traces.rs"]
mod traces;

use sic::RECORD_SIZE;

fn number<T>(answer: Result<T, sic::Refusal>) -> Result<T, u32> {
    answer.map_err(|r| r.number())
}

/// Every call on the body, and the same in Rust; limits and states from those of its run, a state also for hits of fewer cycles, with
/// which a count may be too large.
fn answers_alike(body: &[u8], hit_cycles: u32) {
    assert_eq!(number(sic::View::new(body).map(|_| ())), natural::check(body));
    assert_eq!(number(sic::finish(body, hit_cycles)), natural::finish(body, hit_cycles));
    assert_eq!(number(sic::best_worst(body, hit_cycles).map(|t| (t.best, t.worst))), natural::best_worst(body, hit_cycles));
    assert_eq!(number(sic::margin(body, 1000, hit_cycles)), natural::margin(body, 1000, hit_cycles));
    for wait in [0, 1, 60535, 65527, 65534, 65535] {
        let bus = number(sic::bus_time(body, wait, hit_cycles).map(|t| (t.accesses, t.time)));
        assert_eq!(bus, natural::bus_time(body, wait, hit_cycles));
    }
    for limit in [0, 1, 7, sic::finish(body, hit_cycles).unwrap_or(0) / 2, u32::MAX] {
        let run = number(sic::run(body, limit, hit_cycles));
        let state = run.as_ref().map_or(sic::State::start(), |r| r.state);
        assert_eq!(run.map(|r| (r.state, r.cycles, r.left)), natural::run(body, limit, hit_cycles));
        for cycles in [hit_cycles, hit_cycles / 2] {
            assert_eq!(number(sic::step(body, state, cycles)), natural::step(body, &state, cycles));
        }
    }
}

/// Cycle after cycle, which is slow where latencies are long.
fn simulated_alike(known: &[u8], any: &[u8], hit_cycles: u32) {
    let (state, cycles) = natural::simulate(known, u32::MAX, hit_cycles);
    assert_eq!((Ok(cycles), Ok(state)), (sic::finish(known, hit_cycles), sic::run(known, u32::MAX, hit_cycles).map(|r| r.state)));
    assert_eq!(Ok(natural::best_worst_by_cycles(any, hit_cycles)), sic::best_worst(any, hit_cycles).map(|t| (t.best, t.worst)));
}

fn opened_alike(body: &[u8]) {
    let mut file = vec![0; sic::MAX_FILE_BYTES];
    let length = sic::write(&[(body.len() / RECORD_SIZE) as u16], body, &mut file).unwrap();
    for file in [&file[..length], &file[..length - 1]] {
        for trace in 0..2 {
            let place = |part: &[u8]| (part.len(), part.as_ptr());
            assert_eq!(number(sic::open(file, trace)).map(place), natural::open(file, trace).map(place));
        }
    }
}

/// Jobs of up to 16 traces of so many instructions, whole and cut, with a list that is long enough and one that is not.
fn jobs_alike(records: &[u8], n: usize, hit_cycles: u32) {
    for records in records.chunks(16 * n * RECORD_SIZE) {
        let traces = records.len() / RECORD_SIZE / n;
        let mut file = vec![0; sic::MAX_FILE_BYTES];
        let length = sic::write(&vec![n as u16; traces], &records[..traces * n * RECORD_SIZE], &mut file).unwrap();
        for (length, places) in [(length, traces), (length, traces + 3), (length, traces - 1), (length - 1, traces)] {
            let (mut ours, mut rust) = (vec![7; places], vec![7; places]);
            let answer = number(sic::worst_times(&file[..length], &mut ours, hit_cycles));
            assert_eq!(answer, natural::worst_times(&file[..length], &mut rust, hit_cycles));
            assert_eq!(ours, rust);
        }
    }
}

/// The cycles that every data latency is above, and those of a data hit: fewer, as many, and one more, which refuses the traces that
/// have the least latency.
const HITS: [(u32, u32); 6] = [(0, 0), (0, 1), (3, 0), (3, 3), (3, 4), (15, 15)];

#[test]
fn random_jobs() {
    for n in [1, 12, 400] {
        for (above, hit_cycles) in HITS {
            jobs_alike(&traces::random(12000, 8, 3, above), n, hit_cycles);
        }
        jobs_alike(&traces::random(12000, 8, 3, 16), n, 16);
    }
}

fn bodies_alike(known: &[u8], any: &[u8], hit_cycles: u32) {
    for n in [1, 2, 12, 400] {
        for (known, any) in known.chunks_exact(n * RECORD_SIZE).zip(any.chunks_exact(n * RECORD_SIZE)) {
            answers_alike(known, hit_cycles);
            answers_alike(any, hit_cycles);
        }
    }
}

#[test]
fn random_bodies() {
    for (above, hit_cycles) in HITS {
        let (known, any) = (traces::random(12000, 8, 2, above), traces::random(12000, 8, 3, above));
        bodies_alike(&known, &any, hit_cycles);
        for (known, any) in known.chunks(120 * RECORD_SIZE).zip(any.chunks(120 * RECORD_SIZE)) {
            simulated_alike(known, any, above);
            opened_alike(any);
        }
    }
}

#[test]
fn whole_bodies() {
    for body in [traces::random(sic::MAX_INSTRUCTIONS, 5000, 2, 15), traces::plain(sic::MAX_INSTRUCTIONS), traces::longest(), vec![]] {
        for hit_cycles in [0, 15, 16, u32::MAX] {
            answers_alike(&body, hit_cycles);
        }
        opened_alike(&body);
    }
}

#[test]
fn refused_bodies() {
    let body = traces::random(9, 8, 2, 0);
    assert!((0..5).all(|kind| body.chunks_exact(RECORD_SIZE).any(|b| b[0] == kind)), "a kind is missing");
    answers_alike(&body[..body.len() - 1], 0);
    answers_alike(&traces::plain(sic::MAX_INSTRUCTIONS + 1), 0);
    for at in 0..body.len() {
        for value in [0, 3, 4, 5, 15, 16, 31, 32, 255] {
            let mut damaged = body.clone();
            damaged[at] = value;
            for hit_cycles in [0, 3, 15, 16] {
                answers_alike(&damaged, hit_cycles);
            }
        }
    }
}
