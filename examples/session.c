/* A session of document 01: an adapter enters a deck. It is loaded and run; the ending, the steps and the final weight are printed. */
#include <stdio.h>

#include "adapter_and_deck.h"
#include "cabinet.h"

static uint8_t first[CABINET_BYTE_LIMIT];
static uint8_t last[CABINET_BYTE_LIMIT];

static int refused(uint32_t refusal)
{
    printf("%u\n", (unsigned)refusal);
    return 1;
}

int main(void)
{
    struct cabinet_length_answer loaded = cabinet_load(job, sizeof job, first, sizeof first);
    if (loaded.refusal != CABINET_ACCEPTED)
        return refused(loaded.refusal);

    struct cabinet_run_answer run = cabinet_run(first, loaded.length, UINT16_MAX, last, sizeof last);
    if (run.refusal != CABINET_ACCEPTED)
        return refused(run.refusal);

    struct cabinet_weight_answer weighed = cabinet_weight(last, run.length);
    if (weighed.refusal != CABINET_ACCEPTED)
        return refused(weighed.refusal);

    if (run.ending == CABINET_ENDED_BLOCKED)
        printf("blocked");
    else if (run.ending == CABINET_ENDED_SPENT)
        printf("spent");
    else
        printf("%u", (unsigned)run.ending);
    printf(" %u %u\n", (unsigned)run.steps, (unsigned)weighed.weight);
    return 0;
}
