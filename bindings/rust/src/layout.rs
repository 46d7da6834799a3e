//! Where each field of each struct of include/sic.h stands, in bytes from its start, and how many bytes the struct takes, on
//! x86-64. The crate does not build where a struct of its own differs from this table; tools/test-bindings makes the same
//! assertions of it in C and in C++, and bindings/c/fields.c shows that the library reads and writes the fields there.
use crate::raw::{BestAndWorst, DeadlineMargin, Finished, Likeness, Part, Ran, Read, Reported, Stepped, TimeOnBus, WholeJob, Written};
use crate::{Fields, Slot, State};
use std::mem::{offset_of, size_of};

/// The pattern names every field, so that none is left out of the table.
macro_rules! layout {
    ($($c:ident $rust:ident $size:literal { $($field:ident $offset:literal),* })*) => {$(
        const _: () = assert!(size_of::<$rust>() == $size);
        $(const _: () = assert!(offset_of!($rust, $field) == $offset);)*
        const _: fn($rust) = |$rust { $($field: _),* }| ();
    )*};
}

layout! {
    sic_slot Slot 12 { filled 0, index 4, count 8 }
    sic_state State 76 { fetched 0, IF 4, ID 16, EX 28, MEM 40, ST 52, WB 64 }
    sic_part Part 24 { refusal 0, start 8, length 16 }
    sic_written Written 8 { refusal 0, length 4 }
    sic_fields Fields 36 { kind 0, fetch 4, access 8, source1 12, source2 16, target 20, execution 24, fetch_latency 28, data_latency 32 }
    sic_read Read 40 { refusal 0, fields 4 }
    sic_stepped Stepped 80 { refusal 0, state 4 }
    sic_ran Ran 88 { refusal 0, state 4, cycles 80, left 84 }
    sic_finished Finished 8 { refusal 0, time 4 }
    sic_best_and_worst BestAndWorst 12 { refusal 0, best 4, worst 8 }
    sic_deadline_margin DeadlineMargin 16 { refusal 0, margin 8 }
    sic_likeness Likeness 8 { refusal 0, alike 4 }
    sic_time_on_bus TimeOnBus 12 { refusal 0, accesses 4, time 8 }
    sic_whole_job WholeJob 8 { refusal 0, traces 4 }
    sic_reported Reported 16 { refusal 0, traces 4, length 8 }
}
