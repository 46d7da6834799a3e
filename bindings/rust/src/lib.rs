//! The proved timing engine of the strictly in-order core: slices in, `Result<_, Refusal>` out.
//!
//! ```
//! use sic::Refusal;
//!
//! let plain = [0, 0, 0, 0, 0, 0, 1, 0, 0, 0];
//! assert_eq!(sic::finish(&plain, 0), Ok(6));
//! assert_eq!(sic::margin(&plain, 5, 0), Ok(-1));
//!
//! let unknown_fetch = [0, 2, 0, 0, 0, 0, 10, 0, 0, 0];
//! assert_eq!(sic::best_worst(&unknown_fetch, 0), Ok(sic::BestAndWorst { best: 6, worst: 16 }));
//! assert_eq!(sic::finish(&unknown_fetch, 0), Err(Refusal::UnknownFlag));
//! ```
//!
//! Each call that times something takes `hit_cycles` last: how many cycles more the core spends on a data hit, 0 to 15; 0 for
//! cores whose data hits take no cycles. It is refused with 17 where it is above 15, even if there is no instruction, and where
//! the data latency of a load or store, whatever its flag, is not above it.
//!
//! ```
//! use sic::Refusal;
//!
//! let load_hit = [1, 0, 0, 0, 0, 0, 1, 0, 4, 0];
//! assert_eq!(sic::finish(&load_hit, 0), Ok(6));
//! assert_eq!(sic::finish(&load_hit, 3), Ok(9));
//! assert_eq!(sic::finish(&load_hit, 4), Err(Refusal::LongHit));
//! assert_eq!(sic::finish(&[], 16), Err(Refusal::LongHit));
//! ```
mod layout;
pub mod raw;
mod refusal;

use refusal::answer;
pub use refusal::Refusal;

/// The most instructions that a trace has.
pub const MAX_INSTRUCTIONS: usize = 4096;
/// The most bytes that a job file has.
pub const MAX_FILE_BYTES: usize = 65536;
/// The most traces that a job file has.
pub const MAX_TRACES: usize = 16;
/// The bytes of a record.
pub const RECORD_SIZE: usize = 10;
const CHART_BYTES: usize = 25 + 1001 * 143 + 33; // the header, rows 0 to 1,000, the last line
const REPORT_BYTES: usize = 17 * 78 + 33 + 39; // the header and 16 lines, the cycles of a data hit, the last line

/// A stage's slot; an empty one has index and count 0.
#[derive(Clone, Copy, Debug, Default, PartialEq, Eq)]
#[repr(C)]
pub struct Slot {
    pub filled: bool,
    pub index: u32,
    pub count: u32,
}

/// The pipeline: how many instructions are fetched, and the slots of the stages.
#[allow(non_snake_case)]
#[derive(Clone, Copy, Debug, PartialEq, Eq)]
#[repr(C)]
pub struct State {
    pub fetched: u32,
    pub IF: Slot,
    pub ID: Slot,
    pub EX: Slot,
    pub MEM: Slot,
    pub ST: Slot,
    pub WB: Slot,
}

impl State {
    /// Everything in pre.
    #[inline]
    pub fn start() -> State {
        unsafe { raw::sic_start() }
    }

    /// One cycle on, in place; a refusal leaves the state as it is. Refuses 10, 8, 17, 11, 12, as `step`.
    #[inline]
    pub fn advance(&mut self, body: &[u8], hit_cycles: u32) -> Result<(), Refusal> {
        answer(unsafe { raw::sic_advance(self, body.as_ptr(), body.len(), hit_cycles) }, ())
    }
}

impl Default for State {
    fn default() -> State {
        State::start()
    }
}

/// The nine fields of a record, as its bytes stand.
#[derive(Clone, Copy, Debug, PartialEq, Eq)]
#[repr(C)]
pub struct Fields {
    /// 0 plain, 1 load, 2 store, 3 conditional branch, 4 jump.
    pub kind: u32,
    pub fetch: u32,
    pub access: u32,
    pub source1: u32,
    /// Of a store, the value to be stored, for which it waits later than for `source1`.
    pub source2: u32,
    pub target: u32,
    pub execution: u32,
    pub fetch_latency: u32,
    pub data_latency: u32,
}

/// What a run gives.
#[derive(Clone, Copy, Debug, PartialEq, Eq)]
pub struct Ran {
    pub state: State,
    pub cycles: u32,
    pub left: bool,
}

/// The least and the greatest finishing time over all settlings.
#[derive(Clone, Copy, Debug, PartialEq, Eq)]
pub struct BestAndWorst {
    pub best: u32,
    pub worst: u32,
}

/// How many memory accesses other cores may make wait, and the time by which all instructions have left even so.
#[derive(Clone, Copy, Debug, PartialEq, Eq)]
pub struct TimeOnBus {
    pub accesses: u32,
    pub time: u32,
}

/// A body that was checked, and its records.
#[derive(Clone, Copy, Debug)]
pub struct View<'a> {
    body: &'a [u8],
}

impl<'a> View<'a> {
    /// Refuses 10, 8.
    #[inline]
    pub fn new(body: &'a [u8]) -> Result<View<'a>, Refusal> {
        answer(unsafe { raw::sic_check(body.as_ptr(), body.len()) }, View { body })
    }

    /// How many instructions the body has.
    pub fn len(&self) -> usize {
        self.body.len() / RECORD_SIZE
    }

    pub fn is_empty(&self) -> bool {
        self.len() == 0
    }

    /// The fields of instruction k. Refuses 9.
    #[inline]
    pub fn record(&self, k: u32) -> Result<Fields, Refusal> {
        record_at(self.body, k)
    }
}

/// The fields of instruction k of any bytes, as they stand. Refuses 9.
#[inline]
pub fn record_at(body: &[u8], k: u32) -> Result<Fields, Refusal> {
    let read = unsafe { raw::sic_record(body.as_ptr(), body.len(), k) };
    answer(read.refusal, read.fields)
}

/// A trace's body as a part of its file. Refuses 1 to 4; then, entry by entry, 5 and 6; then 7, 8, 9.
#[inline]
pub fn open(file: &[u8], trace: u32) -> Result<&[u8], Refusal> {
    let part = unsafe { raw::sic_open(file.as_ptr(), file.len(), trace) };
    answer(part.refusal, ())?;
    Ok(&file[part.start..part.start + part.length])
}

/// Makes a job file of counts and joined records in `out`; its length. Refuses 3, 5, 13, 1, 8, 14.
pub fn write(counts: &[u16], records: &[u8], out: &mut [u8]) -> Result<usize, Refusal> {
    let written = unsafe { raw::sic_write(counts.as_ptr(), counts.len(), records.as_ptr(), records.len(), out.as_mut_ptr(), out.len()) };
    answer(written.refusal, written.length as usize)
}

/// The state one cycle on; the counts of the given one are judged by `hit_cycles`. Refuses 10, 8, 17, 11, 12.
#[inline]
pub fn step(body: &[u8], state: State, hit_cycles: u32) -> Result<State, Refusal> {
    let mut own = state;
    own.advance(body, hit_cycles)?;
    Ok(own)
}

/// At most `limit` cycles from the start. Refuses 10, 8, 17, 11.
#[inline]
pub fn run(body: &[u8], limit: u32, hit_cycles: u32) -> Result<Ran, Refusal> {
    let ran = unsafe { raw::sic_run(body.as_ptr(), body.len(), limit, hit_cycles) };
    answer(ran.refusal, Ran { state: ran.state, cycles: ran.cycles, left: ran.left })
}

/// The finishing time. Refuses 10, 8, 17, 11.
#[inline]
pub fn finish(body: &[u8], hit_cycles: u32) -> Result<u32, Refusal> {
    let finished = unsafe { raw::sic_finish(body.as_ptr(), body.len(), hit_cycles) };
    answer(finished.refusal, finished.time)
}

/// The least and the greatest finishing time over all settlings. Refuses 10, 8, 17.
#[inline]
pub fn best_worst(body: &[u8], hit_cycles: u32) -> Result<BestAndWorst, Refusal> {
    let times = unsafe { raw::sic_best_worst(body.as_ptr(), body.len(), hit_cycles) };
    answer(times.refusal, BestAndWorst { best: times.best, worst: times.worst })
}

/// Deadline minus worst time; 0 is met exactly. Refuses 10, 8, 17.
#[inline]
pub fn margin(body: &[u8], deadline: u32, hit_cycles: u32) -> Result<i64, Refusal> {
    let slack = unsafe { raw::sic_margin(body.as_ptr(), body.len(), deadline, hit_cycles) };
    answer(slack.refusal, slack.margin)
}

/// Whether the finishing times are equal. Refuses 10, 8, 17, 11 of the first, then of the second.
#[inline]
pub fn alike(first: &[u8], second: &[u8], hit_cycles: u32) -> Result<bool, Refusal> {
    let likeness = unsafe { raw::sic_alike(first.as_ptr(), first.len(), second.as_ptr(), second.len(), hit_cycles) };
    answer(likeness.refusal, likeness.alike)
}

/// The worst time on a bus where other cores make each memory access wait for at most `wait` cycles: `wait` is added once for
/// each fetch, and each data access of a load or store, that is marked miss or unknown. No settling of the flags finishes
/// later, whichever waits from 0 to `wait` are added to its misses. Refuses 10, 8, 17, 15; the latency of an access that hits
/// never gives 15.
///
/// ```
/// use sic::{TimeOnBus, Refusal};
///
/// let unknown_fetch = [0, 2, 0, 0, 0, 0, 10, 0, 0, 0];
/// assert_eq!(sic::bus_time(&unknown_fetch, 7, 0), Ok(TimeOnBus { accesses: 1, time: 16 + 7 }));
/// assert_eq!(sic::bus_time(&unknown_fetch, 65526, 0), Err(Refusal::LongWait));
/// ```
#[inline]
pub fn bus_time(body: &[u8], wait: u16, hit_cycles: u32) -> Result<TimeOnBus, Refusal> {
    let bus = unsafe { raw::sic_bus_time(body.as_ptr(), body.len(), wait, hit_cycles) };
    answer(bus.refusal, TimeOnBus { accesses: bus.accesses, time: bus.time })
}

/// The worst time of each trace of a job file, in the traces' order, in the first places of `times`; how many they are. The
/// places after them keep their values. Each time is what `open` and `best_worst` give for that trace alone, but the file is
/// checked once. Refuses 1 to 8, as `open`, then 17 of any trace, then 16; a list of `MAX_TRACES` places is always long enough.
///
/// ```
/// use sic::Refusal;
///
/// let mut file = [0; 34];
/// sic::write(&[1, 1], &[0, 0, 0, 0, 0, 0, 1, 0, 0, 0, 0, 2, 0, 0, 0, 0, 10, 0, 0, 0], &mut file)?;
/// let mut times = [7; 3];
/// assert_eq!(sic::worst_times(&file, &mut times, 0), Ok(2));
/// assert_eq!(times, [6, 16, 7]);
/// assert_eq!(sic::worst_times(&file, &mut times[..1], 0), Err(Refusal::ShortList));
/// # Ok::<(), Refusal>(())
/// ```
#[inline]
pub fn worst_times(file: &[u8], times: &mut [u32], hit_cycles: u32) -> Result<usize, Refusal> {
    let job = unsafe { raw::sic_worst_times(file.as_ptr(), file.len(), times.as_mut_ptr(), times.len(), hit_cycles) };
    answer(job.refusal, job.traces as usize)
}

/// The chart of a job file's first trace, whose data hits take no cycles, or the line that tells its refusal.
pub fn chart(file: &[u8]) -> String {
    let mut text = vec![0; CHART_BYTES];
    let length = unsafe { raw::sic_chart(file.as_ptr(), file.len(), text.as_mut_ptr(), text.len()) };
    text.truncate(length);
    String::from_utf8(text).expect("ASCII")
}

/// The report of a job file: a line for each trace with its margin, then the cycles of a data hit where it takes any, then how
/// many deadlines are met. There is one deadline for all traces or one for each, else no report. Refuses 1 to 8, as `open`,
/// then 17 of any trace.
pub fn report(file: &[u8], deadlines: &[u32], hit_cycles: u32) -> Result<Option<String>, Refusal> {
    let mut text = vec![0; REPORT_BYTES];
    let (out, room) = (text.as_mut_ptr(), text.len());
    let reported = unsafe { raw::sic_report(file.as_ptr(), file.len(), deadlines.as_ptr(), deadlines.len(), out, room, hit_cycles) };
    answer(reported.refusal, ())?;
    text.truncate(reported.length);
    let fits = deadlines.len() == 1 || deadlines.len() == reported.traces as usize;
    Ok(fits.then(|| String::from_utf8(text).expect("ASCII")))
}
