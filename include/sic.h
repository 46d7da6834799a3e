/* The timing engine of the strictly in-order core, for C and C++.
 *
 * Link target/staticlib/libsic.a, which `tools/library` proves and writes (x86-64 Linux).
 *
 * What the caller ensures. No call can test it, the proofs take it for granted, and where it does not hold
 * anything may happen. (In Rust the compiler sees to it.)
 *
 *  - A pointer is not null, even where its length is 0, and is aligned for its type.
 *  - A length counts elements, and that many stand behind the pointer. No other thread writes to them
 *    during the call, nor reads what the call writes.
 *  - `out`, `times` and `state` overlap with nothing else that is lent to the same call. The others may overlap.
 *  - A bool in a state is 0 or 1, as every bool that C makes.
 *
 * Nothing else is asked: files, bodies, records, states and numbers may hold anything, and a call refuses
 * what it cannot take. Nothing is kept after a call, and only `out`, `times` and `state` are written to.
 *
 * A call that declines gives the first refusal number of its list below that applies, and leaves what was
 * lent as it was. Its other numbers are then 0, a yes or no is false and a part is empty; Step gives the
 * state that it was given, Run the starting state.
 */
#ifndef SIC_H
#define SIC_H

#include <stdbool.h>
#include <stddef.h>
#include <stdint.h>

#ifdef __cplusplus
extern "C" {
#endif

/* The refusal numbers, in the words of docs/FORMAT.md, which says what to do too; 0 is none. */
enum sic_refusal {
    SIC_TOO_LONG = 1,         /* the file is longer than 65,536 bytes */
    SIC_TOO_SHORT = 2,        /* the file is shorter than two bytes */
    SIC_TOO_MANY_TRACES = 3,  /* there are more than 16 traces */
    SIC_CUT_TABLE = 4,        /* the file ends within its table */
    SIC_LARGE_COUNT = 5,      /* a trace has more than 4,096 instructions */
    SIC_WRONG_OFFSET = 6,     /* an offset is not where its body starts */
    SIC_WRONG_END = 7,        /* the file does not end with its last body */
    SIC_BROKEN_RECORD = 8,    /* a record breaks its rules */
    SIC_OUT_OF_RANGE = 9,     /* there is no such trace or instruction */
    SIC_WRONG_LENGTH = 10,    /* the body is not ten bytes for each of at most 4,096 instructions */
    SIC_UNKNOWN_FLAG = 11,    /* a flag is unknown where each must be a hit or a miss */
    SIC_NOT_ORDERLY = 12,     /* the state is not orderly */
    SIC_WRONG_RECORDS = 13,   /* the records are not ten bytes for each instruction counted */
    SIC_SHORT_OUTPUT = 14,    /* the output is shorter than the file */
    SIC_LONG_WAIT = 15,       /* a counted latency plus the wait exceeds 65,535 */
    SIC_SHORT_LIST = 16,      /* the list has fewer places than there are traces */
    SIC_LONG_HIT = 17         /* a data hit takes more than 15 cycles, or no fewer than a load's or store's data latency */
};

#define SIC_MAX_INSTRUCTIONS 4096
#define SIC_MAX_FILE_BYTES 65536
#define SIC_MAX_TRACES 16
#define SIC_CHART_BYTES (25 + 1001 * 143 + 33) /* the header, rows 0 to 1,000, the last line */
#define SIC_REPORT_BYTES (17 * 78 + 33 + 39) /* the header and 16 lines, the cycles of a data hit, the last line */

/* A stage's slot: empty, with index and count 0, or an instruction and its remaining count. */
typedef struct {
    bool filled;
    uint32_t index;
    uint32_t count;
} sic_slot;

/* The pipeline: how many instructions are fetched, and the slots of the stages. */
typedef struct {
    uint32_t fetched;
    sic_slot IF, ID, EX, MEM, ST, WB;
} sic_state;

/* A part of a file: its bytes from `start` on, `length` of them. */
typedef struct {
    uint32_t refusal;
    size_t start;
    size_t length;
} sic_part;

typedef struct {
    uint32_t refusal;
    uint32_t length;
} sic_written;

/* Kinds: 0 plain, 1 load, 2 store, 3 conditional branch, 4 jump. Flags: 0 hit, 1 miss, 2 unknown. Of a store, source2 is the
 * value to be stored, for which it waits later than for source1. */
typedef struct {
    uint32_t kind, fetch, access, source1, source2, target, execution, fetch_latency, data_latency;
} sic_fields;

typedef struct {
    uint32_t refusal;
    sic_fields fields;
} sic_read;

typedef struct {
    uint32_t refusal;
    sic_state state;
} sic_stepped;

/* `cycles` is the smaller of limit and finishing time; `left` whether all have left by then. */
typedef struct {
    uint32_t refusal;
    sic_state state;
    uint32_t cycles;
    bool left;
} sic_ran;

typedef struct {
    uint32_t refusal;
    uint32_t time;
} sic_finished;

typedef struct {
    uint32_t refusal;
    uint32_t best;
    uint32_t worst;
} sic_best_and_worst;

/* Below 0 the deadline is missed; 0 is met exactly. */
typedef struct {
    uint32_t refusal;
    int64_t margin;
} sic_deadline_margin;

typedef struct {
    uint32_t refusal;
    bool alike;
} sic_likeness;

/* `accesses` counts the fetches, and the data accesses of loads and stores, that are marked miss or unknown. */
typedef struct {
    uint32_t refusal, accesses, time;
} sic_time_on_bus;

/* `traces` is how many the file has, and so how many places of the list are filled; 0 on every refusal. */
typedef struct {
    uint32_t refusal, traces;
} sic_whole_job;

/* `traces` is how many the file has; `length` 0 where no report was written. */
typedef struct {
    uint32_t refusal;
    uint32_t traces;
    size_t length;
} sic_reported;

/* Open: where trace `trace`'s body is in the file. 1, 2, 3, 4; then, entry by entry, 5 and 6; then 7, 8, 9. */
sic_part sic_open(const uint8_t *file, size_t file_length, uint32_t trace);

/* Write: the job file of the counts and the joined records, in `out`. 3, 5, 13, 1, 8, 14. */
sic_written sic_write(const uint16_t *counts, size_t traces, const uint8_t *records, size_t records_length, uint8_t *out, size_t out_length);

/* Whether a body may be viewed: 10, 8, or 0. */
uint32_t sic_check(const uint8_t *body, size_t body_length);

/* The fields of instruction k of any bytes, as they stand: of bytes that were never checked, kinds to 255
 * and flags to 3, and bits 4 to 7 of the flags are in no field. 9. */
sic_read sic_record(const uint8_t *body, size_t body_length, uint32_t k);

/* Everything in pre. */
sic_state sic_start(void);

/* `hit_cycles`, in each call that times something: how many cycles more the core spends on a data hit, 0 to 15; 0 for cores
 * whose data hits take no cycles. A load that hits enters MEM with that count, and a store that hits enters ST with it. 17
 * is given where it is above 15, even if there is no instruction, and where the data latency of a load or store, whatever
 * its flag, is not above it. */

/* Step: the state one cycle on, or the state given, whose counts are judged by `hit_cycles`. 10, 8, 17, 11, 12. */
sic_stepped sic_step(const uint8_t *body, size_t body_length, sic_state state, uint32_t hit_cycles);

/* The same in the caller's own storage, where the fields of a refused state stay as they were; the refusal number. */
uint32_t sic_advance(sic_state *state, const uint8_t *body, size_t body_length, uint32_t hit_cycles);

/* Run: at most `limit` cycles from the start. 10, 8, 17, 11. */
sic_ran sic_run(const uint8_t *body, size_t body_length, uint32_t limit, uint32_t hit_cycles);

/* Finish: the finishing time. 10, 8, 17, 11. */
sic_finished sic_finish(const uint8_t *body, size_t body_length, uint32_t hit_cycles);

/* Best and worst, over all settlings of the unknown flags. 10, 8, 17. */
sic_best_and_worst sic_best_worst(const uint8_t *body, size_t body_length, uint32_t hit_cycles);

/* Margin: deadline minus worst. 10, 8, 17. */
sic_deadline_margin sic_margin(const uint8_t *body, size_t body_length, uint32_t deadline, uint32_t hit_cycles);

/* Alike: whether the finishing times are equal. 10, 8, 17, 11 of the first, then of the second. */
sic_likeness sic_alike(const uint8_t *first, size_t first_length, const uint8_t *second, size_t second_length, uint32_t hit_cycles);

/* Time on a shared bus, where other cores make each memory access wait for at most `wait` cycles: worst plus
 * `wait` for each access counted. No settling of the flags finishes later, whichever waits from 0 to `wait`
 * are added to its misses. 10, 8, 17, 15, which is judged on the counted accesses alone. */
sic_time_on_bus sic_bus_time(const uint8_t *body, size_t body_length, uint16_t wait, uint32_t hit_cycles);

/* A whole job in one call: the worst time of each trace of the file, in the traces' order, in the first places of
 * `times`, as Open and Best and worst give it for each trace alone. The places after them keep their values.
 * `times_length` counts places, not bytes; SIC_MAX_TRACES are enough for every file. 1 to 8, as Open; then 17 of any
 * trace, then 16. */
sic_whole_job sic_worst_times(const uint8_t *file, size_t file_length, uint32_t *times, size_t times_length, uint32_t hit_cycles);

/* The chart of the file's first trace as text, or the line that tells the refusal; its length. Its data hits take no
 * cycles. An output of fewer than SIC_CHART_BYTES bytes stays as it is, and the length is 0. */
size_t sic_chart(const uint8_t *file, size_t file_length, uint8_t *out, size_t out_length);

/* The report of the file as text: a line for each trace with its margin, then the cycles of a data hit where it takes
 * any, then how many deadlines are met. `deadlines` has one for all traces or one for each; where it has not, or `out` has
 * fewer than SIC_REPORT_BYTES bytes, the output stays as it is and the length is 0. 1 to 8, as Open; then 17 of any trace. */
sic_reported sic_report(const uint8_t *file, size_t file_length, const uint32_t *deadlines, size_t deadlines_length,
                        uint8_t *out, size_t out_length, uint32_t hit_cycles);

#ifdef __cplusplus
}
#endif

#endif
