/*
 * How much stack each call of the proved library takes, at most, over the stored cases on standard input.
 *
 *     cc -Iinclude examples/stack.c target/staticlib/libcabinet.a -lpthread -o target/stack && target/stack < crates/vectors/stdin
 *
 * All cases of a call are made on one thread whose stack was filled with a pattern; the lowest byte that is no longer the pattern tells.
 */
#define _XOPEN_SOURCE 700

#include <pthread.h>
#include <stdio.h>
#include <stdlib.h>
#include <string.h>

#include "cabinet.h"

enum { WEIGHT = 0, PARTNERS = 7, SWEEP = 8, CALLS = 9, WORDS = 10, ACCESS = 5, STACK = 1 << 20, PATTERN = 0x5A, LONGEST = 65536 };

static const char *const NAMES[CALLS] = {"weight", "load", "list", "step", "run", "write_job", "panel", "partners", "sweep"};

static unsigned char *cases;
static size_t cases_length;
static unsigned char out[LONGEST];
static unsigned char lent[LONGEST];
static struct cabinet_panel panel;

static unsigned word(const unsigned char *header, int index)
{
    return header[2 * index] * 256u + header[2 * index + 1];
}

/* Makes the accesses to a panel, which are so many bytes in front of what the state's buffer holds. */
static void make_accesses(const unsigned char *input, unsigned size, unsigned accesses, unsigned room)
{
    size_t state = size - accesses;
    memcpy(lent, input + accesses, state);
    cabinet_panel_start(&panel, 0);
    for (const unsigned char *access = input; access < input + accesses; access += ACCESS) {
        unsigned number = access[3] * 256u + access[4];
        switch (access[0]) {
        case 0: cabinet_panel_write(&panel, access[1], access[2], lent, state, out, number < room ? number : room); break;
        case 1: cabinet_panel_read(&panel, access[1]); break;
        case 2: cabinet_panel_line(&panel); break;
        case 3: cabinet_panel_start(&panel, number); break;
        }
    }
}

static void make_call(unsigned call, const unsigned char *header, const unsigned char *input, unsigned room)
{
    unsigned size = word(header, 2), first = word(header, 3), second = word(header, 4);
    switch (call) {
    case WEIGHT: cabinet_weight(input, size); break;
    case 1: cabinet_load(input, size, out, room); break;
    case 2: cabinet_list(input, size, out, room); break;
    case 3: cabinet_step(input, size, (uint16_t)first, (uint16_t)second, out, room); break;
    case 4: cabinet_run(input, size, (uint16_t)first, out, room); break;
    case 5: cabinet_write_job((uint16_t)first, input, size, out, room); break;
    case 6: make_accesses(input, size, first, room); break;
    case PARTNERS: cabinet_partners(input, size, (uint16_t)first); break;
    case SWEEP: cabinet_sweep(input, size, out, room); break;
    }
}

/* Makes all cases of one call; the partners of a place and the sweep also of the weight's states, which are as deep as any, with room for all of the
 * state. None where the number is no call's, which tells what the thread takes by itself. */
static void *make_calls(void *number)
{
    unsigned call = *(unsigned *)number;
    size_t at = 0;
    while (at + 2 * WORDS <= cases_length) {
        const unsigned char *header = cases + at;
        unsigned stored = word(header, 1);
        if (stored == call)
            make_call(call, header, header + 2 * WORDS, word(header, 5));
        else if (stored == WEIGHT && (call == PARTNERS || call == SWEEP))
            make_call(call, header, header + 2 * WORDS, word(header, 2));
        at += 2 * WORDS + word(header, 2) + word(header, 9);
    }
    return NULL;
}

static size_t stack_of(unsigned call)
{
    void *lent;
    unsigned char *stack;
    pthread_attr_t attributes;
    pthread_t thread;
    size_t free_bytes = 0;
    if (posix_memalign(&lent, 4096, STACK) != 0)
        exit(2);
    stack = lent;
    memset(stack, PATTERN, STACK);
    pthread_attr_init(&attributes);
    if (pthread_attr_setstack(&attributes, stack, STACK) != 0 || pthread_create(&thread, &attributes, make_calls, &call) != 0)
        exit(2);
    pthread_join(thread, NULL);
    while (free_bytes < STACK && stack[free_bytes] == PATTERN)
        free_bytes++;
    free(stack);
    return STACK - free_bytes;
}

int main(void)
{
    size_t room = 4u << 20, idle;
    cases = malloc(room);
    if (cases == NULL)
        return 2;
    cases_length = fread(cases, 1, room, stdin);
    idle = stack_of(CALLS);
    for (unsigned call = 0; call < CALLS; call++)
        printf("%s %zu\n", NAMES[call], stack_of(call) - idle);
    return 0;
}
