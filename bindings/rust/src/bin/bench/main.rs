//! What each call costs beside the same algorithm in Rust and beside a simulator in Rust that goes cycle after cycle, all in one run.
mod clock;
#[path = "../../../tests/simulator/dice.rs"]
mod dice;
mod mca;
mod natural;
mod traces;

use clock::{alone, once, race};
use std::hint::black_box;

const N: usize = sic::MAX_INSTRUCTIONS;
const SHORT: usize = 12;
/// How many random instructions a call goes through, trace after trace, before it meets the first trace again: branch
/// prediction would learn a few of them, timed over and over, and a trace that is seen once is not learnt.
const RANDOM: usize = 16 * N;
/// Step checks its whole body in each cycle, so that a few cycles of a long trace tell its cost.
const STEPS: u32 = 16;
/// The cycles of a data hit in the row that has any.
const HIT_CYCLES: u32 = 3;

/// Data hits take no cycles in the other rows. Neither side is told so before it runs, since the Rust would be compiled for that
/// number alone.
fn none() -> u32 {
    black_box(0)
}

fn line(call: &str, trace: &str, (ours, rust): (f64, f64), cycles: Option<f64>) {
    let simulator = cycles.map_or("".into(), |t| format!("{:.0}", t / ours));
    println!("| {call} | {trace} | {:.2} us | {:.2} | {simulator} |", ours / 1e3, ours / rust);
}

fn number<T>(answer: Result<T, sic::Refusal>) -> Result<T, u32> {
    answer.map_err(|r| r.number())
}

/// A call on one item after the other, and the same in Rust; the time of each for one item.
fn race_each<I, T: PartialEq + std::fmt::Debug>(items: &[I], ours: impl Fn(&I) -> T, rust: impl Fn(&I) -> T) -> (f64, f64) {
    items.iter().for_each(|i| assert_eq!(ours(i), rust(i)));
    let all = |f: &dyn Fn(&I) -> T| items.iter().for_each(|i| drop(black_box(f(black_box(i)))));
    let (a, b) = race(|| all(&ours), || all(&rust));
    (a / items.len() as f64, b / items.len() as f64)
}

/// What a simulator takes for one of the traces.
fn simulated<T>(bodies: &[&[u8]], f: impl Fn(&[u8]) -> T) -> f64 {
    once(|| bodies.iter().for_each(|b| drop(black_box(f(b))))).1 / bodies.len() as f64
}

/// A job file of so many traces, all of the same length.
fn file_of(traces: usize, records: &[u8]) -> Vec<u8> {
    let mut file = vec![0; sic::MAX_FILE_BYTES];
    let length = sic::write(&vec![(records.len() / sic::RECORD_SIZE / traces) as u16; traces], records, &mut file).unwrap();
    file.truncate(length);
    file
}

fn checks(trace: &str, bodies: &[&[u8]]) {
    let files: Vec<Vec<u8>> = bodies.iter().map(|b| file_of(1, b)).collect();
    let opened = |part: &[u8]| (part.len(), part.as_ptr());
    let open = race_each(&files, |f| number(sic::open(f, 0)).map(opened), |f| natural::open(f, 0).map(opened));
    line("Open", trace, open, None);
    let check = race_each(bodies, |b| number(sic::View::new(b).map(|_| ())), |b| natural::check(b));
    line("body check", trace, check, None);
}

/// What going cycle after cycle to the end takes.
fn cycle_after_cycle(bodies: &[&[u8]], hit_cycles: u32) -> f64 {
    simulated(bodies, |b| {
        let (state, cycles) = natural::simulate(b, u32::MAX, hit_cycles);
        assert_eq!((Ok(cycles), Ok(state)), (sic::finish(b, hit_cycles), sic::run(b, u32::MAX, hit_cycles).map(|r| r.state)));
    })
}

fn finish(trace: &str, bodies: &[&[u8]], hit_cycles: u32, slow: f64) {
    let opaque = || black_box(hit_cycles);
    let finish = race_each(bodies, |b| number(sic::finish(b, opaque())), |b| natural::finish(b, opaque()));
    line("Finish", trace, finish, Some(slow));
}

/// Finish, and Run to the end, which is the longest way, and half way there.
fn ends(trace: &str, bodies: &[&[u8]]) {
    let slow = cycle_after_cycle(bodies, none());
    finish(trace, bodies, 0, slow);
    let whole = |r: sic::Ran| (r.state, r.cycles, r.left);
    let run = race_each(bodies, |b| number(sic::run(b, u32::MAX, none()).map(whole)), |b| natural::run(b, u32::MAX, none()));
    let limits: Vec<(&[u8], u32)> = bodies.iter().map(|&b| (b, sic::finish(b, 0).unwrap() / 2)).collect();
    let half = race_each(&limits, |&(b, limit)| number(sic::run(b, limit, none()).map(whole)), |&(b, limit)| natural::run(b, limit, none()));
    line("Run", trace, run, Some(slow));
    line("Run, half way", trace, half, Some(slow / 2.0));
}

fn bounds(trace: &str, bodies: &[&[u8]]) {
    let pair = |t: sic::BestAndWorst| (t.best, t.worst);
    let times = race_each(bodies, |b| number(sic::best_worst(b, none()).map(pair)), |b| natural::best_worst(b, none()));
    let slow = simulated(bodies, |b| assert_eq!(Ok(natural::best_worst_by_cycles(b, none())), sic::best_worst(b, none()).map(pair)));
    line("Best and worst", trace, times, Some(slow));
}

/// The longest wait for which no latency of the body gives 15.
fn longest_wait(body: &[u8]) -> u16 {
    let latency = |b: &[u8]| sic::record_at(b, 0).map(|f| f.fetch_latency.max(f.data_latency)).unwrap();
    u16::MAX - body.chunks_exact(sic::RECORD_SIZE).map(latency).max().unwrap_or(0) as u16
}

/// Margin, and the time on a shared bus, which also counts accesses.
fn worst_times(trace: &str, bodies: &[&[u8]]) {
    let margin = race_each(bodies, |b| number(sic::margin(b, 1000, none())), |b| natural::margin(b, 1000, none()));
    line("Margin", trace, margin, None);
    let waits: Vec<(&[u8], u16)> = bodies.iter().map(|&b| (b, longest_wait(b))).collect();
    let pair = |t: sic::TimeOnBus| (t.accesses, t.time);
    let ours = |&(b, wait): &(&[u8], u16)| number(sic::bus_time(b, wait, none()).map(pair));
    let bus = race_each(&waits, ours, |&(b, wait)| natural::bus_time(b, wait, none()));
    line("Bus time", trace, bus, None);
}

/// A state, and how many cycles are run from it: a short trace whole, a long one in its middle.
fn stretch(body: &[u8]) -> (&[u8], sic::State, u32) {
    let finish = sic::finish(body, 0).unwrap();
    if body.len() <= SHORT * sic::RECORD_SIZE {
        return (body, sic::State::start(), finish);
    }
    (body, sic::run(body, finish / 2, 0).unwrap().state, STEPS)
}

fn in_place(body: &[u8], mut state: sic::State, cycles: u32) -> sic::State {
    for _ in 0..cycles {
        state.advance(black_box(body), none()).unwrap();
    }
    state
}

/// Step by value as C calls it.
fn by_value(body: &[u8], state: sic::State) -> sic::State {
    let stepped = unsafe { sic::raw::sic_step(body.as_ptr(), body.len(), state, none()) };
    assert_eq!(stepped.refusal, 0);
    stepped.state
}

/// The same cycles by each form of Step; the time of one.
fn steps(trace: &str, bodies: &[&[u8]]) {
    type Stretch<'a> = (&'a [u8], sic::State, u32);
    let stretches: Vec<Stretch> = bodies.iter().map(|b| stretch(b)).collect();
    let cycles = stretches.iter().map(|s| s.2 as f64).sum::<f64>() / bodies.len() as f64;
    let rust = |&(body, from, cycles): &Stretch| (0..cycles).fold(from, |s, _| natural::step(black_box(body), &s, none()).unwrap());
    let cycle = |call: &str, ours: &dyn Fn(&Stretch) -> sic::State| {
        let (a, b) = race_each(&stretches, ours, rust);
        line(call, trace, (a / cycles, b / cycles), None);
    };
    cycle("Step, a cycle", &|&(body, from, cycles)| (0..cycles).fold(from, |s, _| sic::step(black_box(body), s, none()).unwrap()));
    cycle("Step in place, a cycle", &|&(body, from, cycles)| in_place(body, from, cycles));
    cycle("Step from C, a cycle", &|&(body, from, cycles)| (0..cycles).fold(from, |s, _| by_value(black_box(body), s)));
}

/// Records in bodies of so many instructions each.
fn bodies_of(records: &[u8], instructions: usize) -> Vec<&[u8]> {
    records.chunks_exact(instructions * sic::RECORD_SIZE).collect()
}

/// Every call on bodies of so many instructions, with known flags, and with any where the call takes any.
fn calls(trace: &str, known: &[u8], any: &[u8], instructions: usize) {
    let (known, any) = (bodies_of(known, instructions), bodies_of(any, instructions));
    checks(trace, &known);
    ends(trace, &known);
    bounds(trace, &any);
    worst_times(trace, &any);
    steps(trace, &known);
}

fn random_calls(trace: &str, most: u64, instructions: usize) {
    calls(trace, &traces::random(RANDOM, most, 2, 0), &traces::random(RANDOM, most, 3, 0), instructions);
}

/// Finish where data hits take cycles, on the first trace of the table with longer data latencies.
fn slow_hits() {
    let records = traces::random(RANDOM, 8, 2, HIT_CYCLES);
    let bodies = bodies_of(&records, N);
    let trace = format!("random, latencies to 8, data hits of {HIT_CYCLES}");
    finish(&trace, &bodies, HIT_CYCLES, cycle_after_cycle(&bodies, HIT_CYCLES));
}

/// What is in a list that is long enough for any job, once its places are filled.
fn filled<E: std::fmt::Debug>(fill: impl Fn(&mut [u32]) -> Result<usize, E>) -> [u32; sic::MAX_TRACES] {
    let mut times = [0; sic::MAX_TRACES];
    fill(&mut times).unwrap();
    times
}

/// The same without the call: each trace is opened and timed by itself.
fn each_alone(file: &[u8], traces: usize, worst: impl Fn(&[u8]) -> u32) -> [u32; sic::MAX_TRACES] {
    filled(|times| {
        for t in 0..traces {
            times[t] = worst(sic::open(file, t as u32)?);
        }
        Ok::<usize, sic::Refusal>(traces)
    })
}

/// Random jobs of so many traces of so many instructions: in one call, beside the same in Rust, and beside each trace alone,
/// its worst time taken from Best and worst, or from Margin, which passes over the body once.
fn whole_jobs(count: usize, instructions: usize) {
    let records = traces::random(RANDOM, 8, 3, 0);
    let files: Vec<Vec<u8>> = bodies_of(&records, count * instructions).iter().map(|r| file_of(count, r)).collect();
    let one_call = |f: &Vec<u8>| filled(|times| sic::worst_times(f, times, none()));
    let (ours, rust) = race_each(&files, one_call, |f| filled(|times| natural::worst_times(f, times, none())));
    let by_best_worst = race_each(&files, one_call, |f| each_alone(f, count, |b| sic::best_worst(b, none()).unwrap().worst));
    let by_margin = race_each(&files, one_call, |f| each_alone(f, count, |b| -sic::margin(b, 0, none()).unwrap() as u32));
    let alone = |(one, each): (f64, f64)| format!("{:.2} us | {:.1}", each / 1e3, each / one);
    println!("| {count} | {instructions} | {:.2} us | {:.2} | {} | {} |", ours / 1e3, ours / rust, alone(by_best_worst), alone(by_margin));
}

/// The time of a call for each instruction of the bodies, which it goes through in turn.
fn each_instruction<T>(bodies: &[&[u8]], f: impl Fn(&[u8]) -> T) -> f64 {
    let instructions = bodies.iter().map(|b| b.len() / sic::RECORD_SIZE).sum::<usize>() as f64;
    alone(|| bodies.iter().for_each(|b| drop(black_box(f(black_box(b)))))) / instructions
}

/// What an instruction costs in random traces of n instructions each.
fn growth(n: usize, most: u64) {
    let (known, any) = (traces::random(RANDOM, most, 2, 0), traces::random(RANDOM, most, 3, 0));
    let (known, any) = (bodies_of(&known, n), bodies_of(&any, n));
    let finish = each_instruction(&known, |b| sic::finish(b, none()));
    let run = each_instruction(&known, |b| sic::run(b, u32::MAX, none()));
    let times = each_instruction(&any, |b| sic::best_worst(b, none()));
    println!("| {} | {n} | {most} | {finish:.1} ns | {run:.1} ns | {times:.1} ns |", known.len());
}

fn main() {
    println!("| call | trace of {N}, unless stated | time | of the same in Rust | times faster than cycle after cycle |\n|---|---|---|---|---|");
    random_calls("random, latencies to 8", 8, N);
    random_calls("random, latencies to 5,000", 5000, N);
    random_calls("random, 12 instructions", 8, SHORT);
    calls("plain", &traces::plain(N), &traces::plain(N), N);
    calls("the longest", &traces::longest(), &traces::longest(), N);
    slow_hits();
    println!("\n| random traces | instructions in each | latencies to | Finish, an instruction | Run | Best and worst |\n|---|---|---|---|---|---|");
    for n in [16, 64, 256, 1024, N] {
        growth(n, 8);
    }
    for most in [1, 100, 5000, 65535] {
        growth(N, most);
    }
    println!("\n| traces in the job | instructions in each | one call | of the same in Rust | each opened, Best and worst | times faster | each opened, Margin | times faster |");
    println!("|---|---|---|---|---|---|---|---|");
    whole_jobs(16, 400);
    whole_jobs(1, N);
    match mca::time(N) {
        Some(t) => println!("\nllvm-mca, {N} instructions: {:.2} ms beside its start", t / 1e6),
        None => println!("\nllvm-mca is not on the PATH"),
    }
}
