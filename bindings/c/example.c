/* Each call once, from C: a load whose access is unknown, then a plain instruction. */
#include "sic.h"
#include <stdio.h>

static const uint8_t task[20] = {1, 8, 0, 0, 1, 0, 1, 0, 10, 0, 0, 0, 1, 0, 0, 0, 1, 0, 0, 0};
static const uint8_t plain[10] = {0, 0, 0, 0, 0, 0, 1, 0, 0, 0};

static void times(void) {
    sic_best_and_worst t = sic_best_worst(task, sizeof task, 0);
    sic_best_and_worst slow_hit = sic_best_worst(task, sizeof task, 3);
    sic_best_and_worst long_hit = sic_best_worst(task, sizeof task, 10);
    sic_deadline_margin late = sic_margin(task, sizeof task, 10, 0);
    sic_time_on_bus bus = sic_bus_time(task, sizeof task, 5, 0);
    sic_time_on_bus long_wait = sic_bus_time(task, sizeof task, UINT16_MAX, 0);
    sic_likeness same = sic_alike(plain, sizeof plain, plain, sizeof plain, 0);
    printf("best %u, worst %u, margin %lld\n", t.best, t.worst, (long long)late.margin);
    printf("with data hits of 3 cycles best %u, worst %u, of hits as long as misses refused %u\n", slow_hit.best, slow_hit.worst, long_hit.refusal);
    printf("on a bus %u, with %u access that may wait, of a long wait refused %u\n", bus.time, bus.accesses, long_wait.refusal);
    printf("finish %u, of an unknown flag refused %u\n", sic_finish(plain, sizeof plain, 0).time, sic_finish(task, sizeof task, 0).refusal);
    printf("alike %d, of a cut body refused %u\n", same.alike, sic_check(plain, 9));
}

static void states(void) {
    sic_state s = sic_start();
    uint32_t refusal = sic_advance(&s, plain, sizeof plain, 0);
    sic_stepped next = sic_step(plain, sizeof plain, s, 0);
    sic_ran run = sic_run(plain, sizeof plain, 100, 0);
    printf("advance %u, fetched %u, IF %d; step: ID %d\n", refusal, s.fetched, s.IF.filled, next.state.ID.filled);
    printf("run %u cycles, left %d\n", run.cycles, run.left);
    s.fetched = 2;
    printf("not orderly: refused %u\n", sic_step(plain, sizeof plain, s, 0).refusal);
}

static void files(void) {
    static uint8_t file[SIC_MAX_FILE_BYTES], text[SIC_CHART_BYTES];
    const uint16_t counts[2] = {2, 0};
    const uint32_t deadline = 20;
    sic_written w = sic_write(counts, 2, task, sizeof task, file, sizeof file);
    sic_part part = sic_open(file, w.length, 0);
    sic_read r = sic_record(file + part.start, part.length, 0);
    uint32_t worst[SIC_MAX_TRACES] = {1, 2, 3};
    sic_whole_job job = sic_worst_times(file, w.length, worst, SIC_MAX_TRACES, 0);
    sic_whole_job short_list = sic_worst_times(file, w.length, worst, 1, 0);
    sic_reported report = sic_report(file, w.length, &deadline, 1, text, sizeof text, 0);
    printf("file of %u bytes, body at %zu of %zu, data latency %u\n", w.length, part.start, part.length, r.fields.data_latency);
    printf("%u worst times, %u and %u, then still %u; of a list of one place refused %u\n", job.traces, worst[0], worst[1], worst[2], short_list.refusal);
    printf("%.*s", (int)report.length, (const char *)text);
    printf("%.*s", (int)sic_chart(file, 1, text, sizeof text), (const char *)text);
}

int main(void) {
    times();
    states();
    files();
    return 0;
}
