/*
 * A technician chooses a partner. Three adapters wait to enter one deck; a run would let in the one with the lowest place, and here it is the one
 * with the highest. Prints how many could answer the deck's accept and the place of each, then the line of the step that is taken, then how many
 * could answer the next.
 */
#include <stdio.h>

#include "cabinet.h"
#include "waiting_adapters.h"

/* so many steps of a run, and all three wait */
enum { STEPS_BEFORE = 13 };

static uint8_t state[CABINET_BYTE_LIMIT];
static uint8_t next[CABINET_BYTE_LIMIT];
static uint8_t places[CABINET_BYTE_LIMIT];

static int refused(uint32_t refusal)
{
    printf("%u\n", (unsigned)refusal);
    return 1;
}

/* The lowest place that can act, and 65,535 where there is none, which has no partners. */
static uint16_t lowest_place(const uint8_t *bytes, size_t length)
{
    struct cabinet_length_answer listed = cabinet_list(bytes, length, places, sizeof places);
    return listed.length == 0 ? UINT16_MAX : (uint16_t)(places[0] * 256 + places[1]);
}

int main(void)
{
    struct cabinet_length_answer loaded = cabinet_load(job, sizeof job, next, sizeof next);
    if (loaded.refusal != CABINET_ACCEPTED)
        return refused(loaded.refusal);
    struct cabinet_run_answer run = cabinet_run(next, loaded.length, STEPS_BEFORE, state, sizeof state);
    if (run.refusal != CABINET_ACCEPTED)
        return refused(run.refusal);

    uint16_t place = lowest_place(state, run.length);
    struct cabinet_partners_answer partners = cabinet_partners(state, run.length, place);
    if (partners.refusal != CABINET_ACCEPTED)
        return refused(partners.refusal);
    printf("%u could answer place %u:", (unsigned)partners.count, (unsigned)place);

    /* Every other partner has a higher place. A step with what is no partner is refused with 9 and changes nothing; so the last that is
     * accepted, with the highest partner, is the one whose result stays in `next`. */
    struct cabinet_step_answer taken = {0, 0, 0};
    unsigned chosen = 0;
    for (unsigned partner = partners.lowest, found = 0; found < partners.count; partner++) {
        struct cabinet_step_answer step = cabinet_step(state, run.length, place, (uint16_t)partner, next, sizeof next);
        if (step.refusal == CABINET_NOT_A_PARTNER)
            continue;
        if (step.refusal != CABINET_ACCEPTED)
            return refused(step.refusal);
        printf(" %u", partner);
        chosen = partner;
        taken = step;
        found++;
    }
    printf("\n%u %u %u %u\n", (unsigned)place, chosen, (unsigned)taken.rule, (unsigned)partners.count);

    place = lowest_place(next, taken.length);
    partners = cabinet_partners(next, taken.length, place);
    if (partners.refusal != CABINET_ACCEPTED)
        return refused(partners.refusal);
    printf("%u could answer place %u\n", (unsigned)partners.count, (unsigned)place);
    return 0;
}
