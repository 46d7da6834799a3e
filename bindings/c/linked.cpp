// Calls from C++, which finds them only under C's names.
#include "sic.h"

int main() {
    const uint8_t plain[10] = {0, 0, 0, 0, 0, 0, 1, 0, 0, 0};
    const sic_finished finished = sic_finish(plain, sizeof plain, 0);
    if (finished.refusal != 0 || finished.time != 6) return 1;
    const uint8_t unknown_fetch[10] = {0, 2, 0, 0, 0, 0, 10, 0, 0, 0};
    const sic_time_on_bus bus = sic_bus_time(unknown_fetch, sizeof unknown_fetch, 7, 0);
    if (bus.refusal != 0 || bus.accesses != 1 || bus.time != 23) return 1;
    const uint8_t no_traces[2] = {0, 0};
    uint32_t times[1] = {7};
    const sic_whole_job job = sic_worst_times(no_traces, sizeof no_traces, times, 1, 0);
    return job.refusal == 0 && job.traces == 0 && times[0] == 7 ? 0 : 1;
}
