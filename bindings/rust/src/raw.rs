//! The functions and structs of include/sic.h, as C has them and with its rules for the caller.
use crate::{Fields, State};

#[repr(C)]
pub struct Part {
    pub refusal: u32,
    pub start: usize,
    pub length: usize,
}

#[repr(C)]
pub struct Written {
    pub refusal: u32,
    pub length: u32,
}

#[repr(C)]
pub struct Read {
    pub refusal: u32,
    pub fields: Fields,
}

#[repr(C)]
pub struct Stepped {
    pub refusal: u32,
    pub state: State,
}

#[repr(C)]
pub struct Ran {
    pub refusal: u32,
    pub state: State,
    pub cycles: u32,
    pub left: bool,
}

#[repr(C)]
pub struct Finished {
    pub refusal: u32,
    pub time: u32,
}

#[repr(C)]
pub struct BestAndWorst {
    pub refusal: u32,
    pub best: u32,
    pub worst: u32,
}

#[repr(C)]
pub struct DeadlineMargin {
    pub refusal: u32,
    pub margin: i64,
}

#[repr(C)]
pub struct Likeness {
    pub refusal: u32,
    pub alike: bool,
}

#[repr(C)]
pub struct TimeOnBus {
    pub refusal: u32,
    pub accesses: u32,
    pub time: u32,
}

#[repr(C)]
pub struct WholeJob {
    pub refusal: u32,
    pub traces: u32,
}

#[repr(C)]
pub struct Reported {
    pub refusal: u32,
    pub traces: u32,
    pub length: usize,
}

extern "C" {
    pub fn sic_open(file: *const u8, file_length: usize, trace: u32) -> Part;
    pub fn sic_write(counts: *const u16, traces: usize, records: *const u8, records_length: usize, out: *mut u8, out_length: usize) -> Written;
    pub fn sic_check(body: *const u8, body_length: usize) -> u32;
    pub fn sic_record(body: *const u8, body_length: usize, k: u32) -> Read;
    pub fn sic_start() -> State;
    pub fn sic_step(body: *const u8, body_length: usize, state: State, hit_cycles: u32) -> Stepped;
    pub fn sic_advance(state: *mut State, body: *const u8, body_length: usize, hit_cycles: u32) -> u32;
    pub fn sic_run(body: *const u8, body_length: usize, limit: u32, hit_cycles: u32) -> Ran;
    pub fn sic_finish(body: *const u8, body_length: usize, hit_cycles: u32) -> Finished;
    pub fn sic_best_worst(body: *const u8, body_length: usize, hit_cycles: u32) -> BestAndWorst;
    pub fn sic_margin(body: *const u8, body_length: usize, deadline: u32, hit_cycles: u32) -> DeadlineMargin;
    pub fn sic_alike(first: *const u8, first_length: usize, second: *const u8, second_length: usize, hit_cycles: u32) -> Likeness;
    pub fn sic_bus_time(body: *const u8, body_length: usize, wait: u16, hit_cycles: u32) -> TimeOnBus;
    pub fn sic_worst_times(file: *const u8, file_length: usize, times: *mut u32, times_length: usize, hit_cycles: u32) -> WholeJob;
    pub fn sic_chart(file: *const u8, file_length: usize, out: *mut u8, out_length: usize) -> usize;
    pub fn sic_report(
        file: *const u8,
        file_length: usize,
        deadlines: *const u32,
        deadlines_length: usize,
        out: *mut u8,
        out_length: usize,
        hit_cycles: u32,
    ) -> Reported;
}
