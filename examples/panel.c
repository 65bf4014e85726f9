/*
 * The session of document 01 through the front panel: an adapter enters a deck. The job is loaded; then every step is asked for, and every answer
 * read, by the registers alone. How many partners a place has is in no register: cabinet_partners tells it of the state's buffer before the step.
 * Prints a line for each step (place, partner or `-`, rule, number of partners), as the program does, and the last line: the ending, the steps, the
 * final weight. A step that is refused ends it with the number in the last refusal.
 */
#include <stdio.h>

#include "adapter_and_deck.h"
#include "cabinet.h"

enum { NONE = CABINET_NO_PARTNER };

/* The steps of the session: place and partner. The cabinet stands at place 0, and is blocked last. */
static const struct {
    uint16_t place, partner;
} steps[] = {
    {1, NONE}, {1, NONE}, {2, NONE}, {1, NONE}, {3, NONE}, {4, 2}, {2, NONE}, {3, NONE}, {2, NONE}, {1, NONE}, {0, NONE},
};

static struct cabinet_panel panel;
static uint8_t state[CABINET_BYTE_LIMIT];
static uint8_t spare[CABINET_BYTE_LIMIT];

static void bus_write(uint8_t address, uint8_t value)
{
    cabinet_panel_write(&panel, address, value, state, sizeof state, spare, sizeof spare);
}

static uint8_t bus_read(uint8_t address)
{
    return cabinet_panel_read(&panel, address);
}

static void write_pair(uint8_t address, uint16_t number)
{
    bus_write(address, (uint8_t)(number >> 8));
    bus_write((uint8_t)(address + 1), (uint8_t)(number & 255));
}

static unsigned read_pair(uint8_t address)
{
    return bus_read(address) * 256u + bus_read((uint8_t)(address + 1));
}

static int refused(unsigned number)
{
    printf("%u\n", number);
    return 1;
}

static int failed(const char *text)
{
    printf("%s\n", text);
    return 1;
}

int main(void)
{
    struct cabinet_length_answer loaded = cabinet_load(job, sizeof job, state, sizeof state);
    struct cabinet_partners_answer partners;
    unsigned count = 0;
    uint8_t flags;
    if (loaded.refusal != CABINET_ACCEPTED)
        return refused((unsigned)loaded.refusal);

    cabinet_panel_start(&panel, loaded.length);
    bus_write(CABINET_PANEL_ENABLE, CABINET_PANEL_STEP_DONE | CABINET_PANEL_REFUSED);

    for (size_t turn = 0; turn < sizeof steps / sizeof steps[0]; turn++) {
        partners = cabinet_partners(state, panel.length, steps[turn].place);
        if (partners.refusal != CABINET_ACCEPTED)
            return refused((unsigned)partners.refusal);

        write_pair(CABINET_PANEL_PLACE_HIGH, steps[turn].place);
        write_pair(CABINET_PANEL_PARTNER_HIGH, steps[turn].partner);
        bus_write(CABINET_PANEL_COMMAND, CABINET_PANEL_STEP);

        /* all is done when the write returns, so one look at the flags is enough; the line is high until the acknowledge */
        flags = bus_read(CABINET_PANEL_FLAGS);
        if (flags & CABINET_PANEL_REFUSED)
            return refused(bus_read(CABINET_PANEL_REFUSAL));
        if (!(flags & CABINET_PANEL_STEP_DONE) || !cabinet_panel_line(&panel))
            return failed("no step is told of");
        count++;

        printf("%u ", (unsigned)steps[turn].place);
        if (steps[turn].partner == NONE)
            printf("-");
        else
            printf("%u", (unsigned)steps[turn].partner);
        printf(" %u %u\n", (unsigned)bus_read(CABINET_PANEL_RULE), (unsigned)partners.count);
        bus_write(CABINET_PANEL_COMMAND, CABINET_PANEL_ACKNOWLEDGE);
        if (cabinet_panel_line(&panel))
            return failed("the line is high after the acknowledge");
    }

    /* bit 0 stays through the acknowledge */
    flags = bus_read(CABINET_PANEL_FLAGS);
    printf("%s %u %u\n", flags & CABINET_PANEL_ALL_BLOCKED ? "blocked" : "spent", count, read_pair(CABINET_PANEL_WEIGHT_HIGH));
    return 0;
}
