/*
 * A state is cleared of its empty boxes. Three reels are announced by local outputs, each of which leaves an empty ambient behind; the job is run to its
 * end and its last state is swept. Prints how the run ended and its steps, and how many bytes the state has before the sweep and after it. The reels are
 * empty too, but their names are free ones, and so they stay.
 */
#include <stdio.h>

#include "cabinet.h"
#include "throwaways.h"

static uint8_t state[CABINET_BYTE_LIMIT];
static uint8_t next[CABINET_BYTE_LIMIT];

static int refused(uint32_t refusal)
{
    printf("%u\n", (unsigned)refusal);
    return 1;
}

int main(void)
{
    struct cabinet_length_answer loaded = cabinet_load(job, sizeof job, state, sizeof state);
    if (loaded.refusal != CABINET_ACCEPTED)
        return refused(loaded.refusal);

    struct cabinet_run_answer run = cabinet_run(state, loaded.length, UINT16_MAX, next, sizeof next);
    if (run.refusal != CABINET_ACCEPTED)
        return refused(run.refusal);
    printf("%s %u\n", run.ending == CABINET_ENDED_BLOCKED ? "blocked" : "not blocked", (unsigned)run.steps);

    /* What is left is never longer than the state, so a buffer of the state's length always holds it. */
    struct cabinet_length_answer swept = cabinet_sweep(next, run.length, state, sizeof state);
    if (swept.refusal != CABINET_ACCEPTED)
        return refused(swept.refusal);
    printf("%u bytes, %u after the sweep\n", (unsigned)run.length, (unsigned)swept.length);
    return 0;
}
