/* Every field of every struct of sic.h, lent or answered with a value of its own: a field that the library has at another
 * place than the header gives another value here. The limits of sic.h are tried too, each at its border, and the cycles of a
 * data hit in each call that takes them. */
#include "sic.h"
#include <stdio.h>
#include <string.h>

static unsigned tried, differ;

static void is(const char *what, long long got, long long want) {
    tried++;
    if (got == want) return;
    differ++;
    fprintf(stderr, "%s is %lld, not %lld\n", what, got, want);
}
#define IS(got, want) is(#got, (long long)(got), (long long)(want))

/* So that each slot can hold an instruction with a count of its own: 1 is a store and 4 a load, and both miss. */
enum { IF_COUNT = 20, NEXT_IF_COUNT = 21, EX_COUNT = 30, NEXT_EX_COUNT = 31, MEM_COUNT = 40, ST_COUNT = 49 };
static const uint8_t body[90] = {
    0, 0, 0, 0, 0, 0, 1, 0, 0, 0,  /* 0 */
    2, 4, 0, 0, 0, 0, 1, 0, 50, 0, /* 1 */
    0, 0, 0, 0, 0, 0, 1, 0, 0, 0,  /* 2 */
    0, 0, 0, 0, 0, 0, 1, 0, 0, 0,  /* 3 */
    1, 4, 0, 0, 0, 0, 1, 0, 40, 0, /* 4 */
    0, 0, 0, 0, 0, 30, 1, 0, 0, 0, /* 5 */
    0, 0, 0, 0, 0, 31, 1, 0, 0, 0, /* 6 */
    0, 1, 0, 0, 0, 0, 20, 0, 0, 0, /* 7 */
    0, 1, 0, 0, 0, 0, 21, 0, 0, 0, /* 8 */
};

static sic_slot *slot_of(sic_state *s, int stage) {
    sic_slot *const slots[6] = {&s->IF, &s->ID, &s->EX, &s->MEM, &s->ST, &s->WB};
    return slots[stage];
}

/* The 19 fields in the header's order. */
static void same_state(const char *what, sic_state got, sic_state want) {
    static const char *const stages[6] = {"IF", "ID", "EX", "MEM", "ST", "WB"};
    char name[80];
    snprintf(name, sizeof name, "fetched %s", what);
    is(name, got.fetched, want.fetched);
    for (int i = 0; i < 6; i++) {
        const sic_slot *g = slot_of(&got, i), *w = slot_of(&want, i);
        snprintf(name, sizeof name, "%s %s", stages[i], what);
        is(name, g->filled, w->filled);
        is(name, g->index, w->index);
        is(name, g->count, w->count);
    }
}

/* Step by value and in place. */
static void both_steps(const char *what, sic_state from, uint32_t refusal, sic_state want) {
    sic_stepped stepped = sic_step(body, sizeof body, from, 0);
    is(what, stepped.refusal, refusal);
    same_state(what, stepped.state, want);
    is(what, sic_advance(&from, body, sizeof body, 0), refusal);
    same_state(what, from, want);
}

/* By name, so that a field's place in the header counts. */
#define STATE(f, if_, id, ex, mem, st, wb) {.fetched = f, .IF = if_, .ID = id, .EX = ex, .MEM = mem, .ST = st, .WB = wb}
#define AT(i, c) {.filled = true, .index = i, .count = c}
#define NONE {.filled = false, .index = 0, .count = 0}

static const sic_state waiting = STATE(8, AT(7, IF_COUNT), AT(6, 0), AT(5, EX_COUNT), AT(4, MEM_COUNT), AT(1, ST_COUNT), AT(3, 0));

/* WB leaves, ID waits for EX, and the other counts fall. */
static void counts_fall(void) {
    const sic_state want = STATE(8, AT(7, IF_COUNT - 1), AT(6, 0), AT(5, EX_COUNT - 1), AT(4, MEM_COUNT - 1), AT(1, ST_COUNT - 1), NONE);
    both_steps("where counts fall", waiting, 0, want);
}

static void all_move(void) {
    const sic_state load = STATE(8, AT(7, 0), AT(6, 0), AT(5, 0), AT(4, 0), AT(1, 0), AT(3, 0));
    const sic_state in_wb = STATE(9, AT(8, NEXT_IF_COUNT), AT(7, 0), AT(6, NEXT_EX_COUNT), AT(5, 0), NONE, AT(4, 0));
    both_steps("where a load leaves MEM", load, 0, in_wb);
    const sic_state store = STATE(5, AT(4, 0), AT(3, 0), AT(2, 0), AT(1, 0), NONE, AT(0, 0));
    const sic_state in_st = STATE(6, AT(5, 0), AT(4, 0), AT(3, 0), AT(2, 0), AT(1, ST_COUNT), NONE);
    both_steps("where a store leaves MEM", store, 0, in_st);
}

/* Each field of an orderly state altered alone, after which it is not orderly. */
static void each_field_matters(void) {
    sic_state s = waiting;
    s.fetched++;
    both_steps("with one more fetched", s, SIC_NOT_ORDERLY, s);
    for (int i = 0; i < 6; i++) {
        s = waiting;
        slot_of(&s, i)->filled = false;
        both_steps("with a slot not filled", s, SIC_NOT_ORDERLY, s);
        s = waiting;
        slot_of(&s, i)->index++;
        both_steps("with the next index", s, SIC_NOT_ORDERLY, s);
        s = waiting;
        slot_of(&s, i)->count++;
        both_steps("with a count too large", s, SIC_NOT_ORDERLY, s);
    }
}

/* A refused state comes back, every field with a value of its own. */
static void handed_back(void) {
    sic_state s = STATE(1000, AT(1, 11), AT(2, 12), AT(3, 13), AT(4, 14), AT(5, 15), AT(6, 16));
    for (int i = 0; i < 6; i++) {
        slot_of(&s, i)->filled = false;
        both_steps("of a refused state", s, SIC_NOT_ORDERLY, s);
    }
}

/* Run's states are Step's, from the first to the last. */
static void runs(void) {
    sic_state s = sic_start();
    const uint32_t finish = sic_finish(body, sizeof body, 0).time;
    for (uint32_t t = 0; t <= finish + 1; t++) {
        sic_ran ran = sic_run(body, sizeof body, t, 0);
        IS(ran.refusal, 0);
        same_state("after a run", ran.state, s);
        IS(ran.cycles, t < finish ? t : finish);
        IS(ran.left, t >= finish);
        IS(sic_advance(&s, body, sizeof body, 0), 0);
    }
    sic_ran refused = sic_run(body, 9, 7, 0);
    IS(refused.refusal, SIC_WRONG_LENGTH);
    same_state("after a refused run", refused.state, sic_start());
    IS(refused.cycles, 0);
    IS(refused.left, false);
}

/* A load whose access is unknown and a plain instruction: 8 cycles at best, 18 at worst. */
static const uint8_t task[20] = {1, 8, 0, 0, 1, 0, 1, 0, 10, 0, 0, 0, 1, 0, 0, 0, 1, 0, 0, 0};
static const uint8_t plain[20] = {0, 0, 0, 0, 0, 0, 1, 0, 0, 0, 0, 0, 0, 0, 0, 0, 1, 0, 0, 0};

static void times(void) {
    sic_best_and_worst t = sic_best_worst(task, sizeof task, 0);
    IS(t.refusal, 0), IS(t.best, 8), IS(t.worst, 18);
    t = sic_best_worst(task, 11, 0);
    IS(t.refusal, SIC_WRONG_LENGTH), IS(t.best, 0), IS(t.worst, 0);
    sic_finished f = sic_finish(plain, sizeof plain, 0);
    IS(f.refusal, 0), IS(f.time, 7);
    f = sic_finish(task, sizeof task, 0);
    IS(f.refusal, SIC_UNKNOWN_FLAG), IS(f.time, 0);
    sic_deadline_margin m = sic_margin(task, sizeof task, 0, 0);
    IS(m.refusal, 0), IS(m.margin, -18);
    m = sic_margin(task, sizeof task, UINT32_MAX, 0);
    IS(m.refusal, 0), IS(m.margin, 4294967277);
    m = sic_margin(task, 11, 7, 0);
    IS(m.refusal, SIC_WRONG_LENGTH), IS(m.margin, 0);
    sic_likeness a = sic_alike(plain, sizeof plain, plain, sizeof plain, 0);
    IS(a.refusal, 0), IS(a.alike, true);
    a = sic_alike(plain, sizeof plain, plain, 10, 0);
    IS(a.refusal, 0), IS(a.alike, false);
    a = sic_alike(plain, sizeof plain, task, sizeof task, 0);
    IS(a.refusal, SIC_UNKNOWN_FLAG), IS(a.alike, false);
}

/* The task's load is counted, its fetches hit; the body of states has the misses of its instructions 1, 4, 7 and 8. */
static void bus_times(void) {
    sic_time_on_bus b = sic_bus_time(task, sizeof task, 0, 0);
    IS(b.refusal, 0), IS(b.accesses, 1), IS(b.time, 18);
    b = sic_bus_time(task, sizeof task, UINT16_MAX - 10, 0);
    IS(b.refusal, 0), IS(b.accesses, 1), IS(b.time, 18 + UINT16_MAX - 10);
    b = sic_bus_time(task, sizeof task, UINT16_MAX - 9, 0);
    IS(b.refusal, SIC_LONG_WAIT), IS(b.accesses, 0), IS(b.time, 0);
    b = sic_bus_time(body, sizeof body, 300, 0);
    IS(b.refusal, 0), IS(b.accesses, 4), IS(b.time, sic_finish(body, sizeof body, 0).time + 4 * 300);
    b = sic_bus_time(plain, sizeof plain, UINT16_MAX, 0);
    IS(b.refusal, 0), IS(b.accesses, 0), IS(b.time, 7);
    b = sic_bus_time(task, 11, UINT16_MAX, 0);
    IS(b.refusal, SIC_WRONG_LENGTH), IS(b.accesses, 0), IS(b.time, 0);
}

static void records(void) {
    static const uint8_t any[20] = {0, 0, 0, 0, 0, 0, 0, 0, 0, 0, 211, 0xf9, 33, 44, 55, 66, 0x34, 0x12, 0x78, 0x56};
    sic_read r = sic_record(any, sizeof any, 1);
    IS(r.refusal, 0), IS(r.fields.kind, 211), IS(r.fields.fetch, 1), IS(r.fields.access, 2);
    IS(r.fields.source1, 33), IS(r.fields.source2, 44), IS(r.fields.target, 55), IS(r.fields.execution, 66);
    IS(r.fields.fetch_latency, 0x1234), IS(r.fields.data_latency, 0x5678);
    IS(sic_record(any, sizeof any, 2).refusal, SIC_OUT_OF_RANGE);
}

static void files(void) {
    static uint8_t file[SIC_MAX_FILE_BYTES + 1], text[SIC_CHART_BYTES];
    const uint16_t counts[3] = {1, 2, 1};
    const uint32_t deadline = 20;
    uint8_t records[40];
    memcpy(records, plain, 20), memcpy(records + 20, plain, 20);
    sic_written w = sic_write(counts, 3, records, sizeof records, file, sizeof file);
    IS(w.refusal, 0), IS(w.length, 60);
    sic_part part = sic_open(file, w.length, 1);
    IS(part.refusal, 0), IS(part.start, 30), IS(part.length, 20);
    part = sic_open(file, w.length, 3);
    IS(part.refusal, SIC_OUT_OF_RANGE), IS(part.start, 0), IS(part.length, 0);
    sic_reported r = sic_report(file, w.length, &deadline, 1, text, SIC_REPORT_BYTES, 0);
    IS(r.refusal, 0), IS(r.traces, 3), IS(r.length, 4 * 78 + strlen("3 of 3 deadlines met\n"));
    r = sic_report(file, w.length, &deadline, 1, text, SIC_REPORT_BYTES - 1, 0);
    IS(r.refusal, 0), IS(r.traces, 3), IS(r.length, 0);
    r = sic_report(file, 1, &deadline, 1, text, SIC_REPORT_BYTES, 0);
    IS(r.refusal, SIC_TOO_SHORT), IS(r.traces, 0), IS(r.length, 0);
    IS(sic_chart(file, 1, text, SIC_CHART_BYTES), strlen("refused 2\n"));
    IS(sic_chart(file, 1, text, SIC_CHART_BYTES - 1), 0);
    w = sic_write(counts, 3, records, 30, file, sizeof file);
    IS(w.refusal, SIC_WRONG_RECORDS), IS(w.length, 0);
    IS(sic_open(file, SIC_MAX_FILE_BYTES, 0).refusal, SIC_WRONG_END);
    IS(sic_open(file, SIC_MAX_FILE_BYTES + 1, 0).refusal, SIC_TOO_LONG);
}

/* A plain instruction, the task, and two plain ones, with lists that are too short, just long enough, and longer. */
static void jobs(void) {
    static uint8_t file[SIC_MAX_FILE_BYTES];
    const uint16_t counts[3] = {1, 2, 2};
    uint8_t records[50];
    uint32_t times[5];
    memcpy(records, plain, 10), memcpy(records + 10, task, 20), memcpy(records + 30, plain, 20);
    const uint32_t length = sic_write(counts, 3, records, sizeof records, file, sizeof file).length;
    for (size_t places = 0; places <= 5; places++) {
        for (uint32_t p = 0; p < 5; p++) times[p] = UINT32_MAX - p;
        sic_whole_job j = sic_worst_times(file, length, times, places, 0);
        const bool fits = places >= 3;
        IS(j.refusal, fits ? 0 : SIC_SHORT_LIST), IS(j.traces, fits ? 3 : 0);
        IS(times[0], fits ? 6 : UINT32_MAX), IS(times[1], fits ? 18 : UINT32_MAX - 1), IS(times[2], fits ? 7 : UINT32_MAX - 2);
        IS(times[3], UINT32_MAX - 3), IS(times[4], UINT32_MAX - 4);
    }
    sic_whole_job j = sic_worst_times(file, 1, times, 0, 0);
    IS(j.refusal, SIC_TOO_SHORT), IS(j.traces, 0);
}

/* A load that hits into register 1 and a plain instruction that needs it; two stores that hit; a store and a load that hit. */
static const uint8_t load_plain[20] = {1, 0, 0, 0, 1, 0, 1, 0, 20, 0, 0, 0, 1, 0, 0, 0, 1, 0, 0, 0};
static const uint8_t store_store[20] = {2, 0, 0, 0, 0, 0, 1, 0, 20, 0, 2, 0, 0, 0, 0, 0, 1, 0, 20, 0};
static const uint8_t store_load[20] = {2, 0, 0, 0, 0, 0, 1, 0, 20, 0, 1, 0, 0, 0, 0, 0, 1, 0, 20, 0};

static void hit_times(void) {
    static const uint32_t hit_cycles[3] = {0, 3, 15}, times[3][3] = {{8, 7, 7}, {11, 13, 10}, {23, 37, 22}};
    for (int i = 0; i < 3; i++) {
        IS(sic_finish(load_plain, 20, hit_cycles[i]).time, times[i][0]);
        IS(sic_finish(store_store, 20, hit_cycles[i]).time, times[i][1]);
        IS(sic_finish(store_load, 20, hit_cycles[i]).time, times[i][2]);
    }
    IS(sic_run(store_store, 20, UINT32_MAX, 3).cycles, 13), IS(sic_margin(store_store, 20, 20, 3).margin, 7);
    IS(sic_best_worst(store_store, 20, 3).best, 13), IS(sic_best_worst(store_store, 20, 3).worst, 13);
    IS(sic_bus_time(store_store, 20, 9, 3).time, 13);
    IS(sic_alike(store_store, 20, plain, 20, 0).alike, true), IS(sic_alike(store_store, 20, plain, 20, 3).alike, false);
}

/* A load in MEM and a store in ST, each with count 3, which is not orderly where its hit takes fewer cycles. */
static void hit_counts(void) {
    const sic_state load = STATE(1, NONE, NONE, NONE, AT(0, 3), NONE, NONE), store = STATE(1, NONE, NONE, NONE, NONE, AT(0, 3), NONE);
    for (uint32_t h = 0; h <= 15; h++) {
        const uint32_t refusal = h < 3 ? SIC_NOT_ORDERLY : 0, count = h < 3 ? 3 : 2;
        sic_stepped stepped = sic_step(load_plain, 20, load, h);
        IS(stepped.refusal, refusal), IS(stepped.state.MEM.count, count);
        sic_state own = store;
        IS(sic_advance(&own, store_store, 20, h), refusal), IS(own.ST.count, count);
    }
}

/* Of one load or store, whatever its flag, 3 cycles are too many where its latency is 3, and not where it is 4. */
static void hit_borders(void) {
    for (uint8_t i = 0; i < 12; i++) {
        const uint8_t kind = i % 2 + 1, flag = i / 2 % 3, latency = i / 6 + 3;
        const uint8_t one[10] = {kind, 4 * flag, 0, 0, 0, 0, 1, 0, latency, 0};
        const uint32_t timed = latency == 3 ? SIC_LONG_HIT : 0;
        const uint32_t settled = timed == 0 && flag == 2 ? SIC_UNKNOWN_FLAG : timed;
        IS(sic_best_worst(one, 10, 3).refusal, timed), IS(sic_margin(one, 10, 7, 3).refusal, timed);
        IS(sic_bus_time(one, 10, UINT16_MAX, 3).refusal, timed == 0 && flag != 0 ? SIC_LONG_WAIT : timed);
        IS(sic_finish(one, 10, 3).refusal, settled), IS(sic_run(one, 10, 7, 3).refusal, settled);
        IS(sic_step(one, 10, sic_start(), 3).refusal, settled), IS(sic_step(one, 10, waiting, 3).refusal, settled ? settled : SIC_NOT_ORDERLY);
        IS(sic_alike(one, 10, plain, 20, 3).refusal, settled), IS(sic_alike(plain, 20, one, 10, 3).refusal, settled);
    }
    IS(sic_finish(plain, 0, 15).refusal, 0), IS(sic_finish(plain, 0, 16).refusal, SIC_LONG_HIT);
    IS(sic_best_worst(plain, 0, 16).refusal, SIC_LONG_HIT), IS(sic_best_worst(plain, 0, UINT32_MAX).refusal, SIC_LONG_HIT);
    IS(sic_best_worst(task, 11, 16).refusal, SIC_WRONG_LENGTH);
}

/* The task, whose latency is 10, and two stores that hit. */
static void hits_in_files(void) {
    static const char last[] = "cycles of a data hit: 3\n1 of 2 deadlines met\n";
    static uint8_t file[54], text[SIC_REPORT_BYTES];
    const uint16_t counts[2] = {2, 2};
    const uint32_t deadline = 13;
    uint8_t records[40], none[2] = {0, 0};
    uint32_t times[3] = {1, 2, 3};
    memcpy(records, task, 20), memcpy(records + 20, store_store, 20);
    const uint32_t length = sic_write(counts, 2, records, sizeof records, file, sizeof file).length;
    IS(sic_worst_times(file, length, times, 3, 10).refusal, SIC_LONG_HIT), IS(sic_worst_times(file, length, times, 1, 10).refusal, SIC_LONG_HIT);
    IS(sic_worst_times(file, length, times, 1, 9).refusal, SIC_SHORT_LIST);
    IS(sic_worst_times(none, 2, times, 0, 15).refusal, 0), IS(sic_worst_times(none, 2, times, 0, 16).refusal, SIC_LONG_HIT);
    IS(times[0], 1), IS(times[1], 2), IS(times[2], 3);
    IS(sic_worst_times(file, length, times, 3, 3).traces, 2), IS(times[0], 18), IS(times[1], 13), IS(times[2], 3);
    sic_reported r = sic_report(file, length, &deadline, 1, text, sizeof text, 10);
    IS(r.refusal, SIC_LONG_HIT), IS(r.traces, 0), IS(r.length, 0), IS(text[0], 0);
    r = sic_report(file, length, &deadline, 1, text, sizeof text, 3);
    IS(r.refusal, 0), IS(r.traces, 2), IS(r.length, 3 * 78 + strlen(last)), IS(memcmp(text + 3 * 78, last, strlen(last)), 0);
}

static void limits(void) {
    static uint8_t longest[10 * (SIC_MAX_INSTRUCTIONS + 1)];
    for (size_t i = 0; i <= SIC_MAX_INSTRUCTIONS; i++) memcpy(longest + 10 * i, plain, 10);
    IS(sic_check(longest, 10 * SIC_MAX_INSTRUCTIONS), 0);
    IS(sic_check(longest, 10 * (SIC_MAX_INSTRUCTIONS + 1)), SIC_WRONG_LENGTH);
    static const uint16_t empty[SIC_MAX_TRACES + 1];
    static uint8_t file[2 + 6 * (SIC_MAX_TRACES + 1)];
    IS(sic_write(empty, SIC_MAX_TRACES, longest, 0, file, sizeof file).refusal, 0);
    IS(sic_write(empty, SIC_MAX_TRACES + 1, longest, 0, file, sizeof file).refusal, SIC_TOO_MANY_TRACES);
}

int main(void) {
    same_state("at the start", sic_start(), (sic_state){0});
    counts_fall();
    all_move();
    each_field_matters();
    handed_back();
    runs();
    times();
    bus_times();
    records();
    files();
    jobs();
    hit_times();
    hit_counts();
    hit_borders();
    hits_in_files();
    limits();
    if (differ == 0) printf("%u values of fields, each where include/sic.h has it\n", tried);
    return differ != 0;
}
