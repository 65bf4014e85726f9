/*
 * The calls of the proved library, target/staticlib/libcabinet.a (x86-64, from `./library`).
 *
 * Every call works on memory that the caller lends for its duration, each part as a pointer and a count of bytes, and keeps none of it.
 * The pointers are to that many bytes and not null, and the output buffer overlaps no other part; nothing else is asked of the caller:
 * every input gets an answer. Results stand at the front of the output buffer, and what is behind them stays as it was.
 *
 * In each answer `refusal` is 0 where the call was accepted, and otherwise the number of the refusal (enum cabinet_refusal). Of a refused
 * call every other number is 0, and no byte of the output buffer is changed. A result is never longer than CABINET_BYTE_LIMIT bytes: a
 * buffer that long always holds it. docs/FORMAT.md has the bytes of jobs and states, and the refusals in the order in which they are judged.
 *
 * The front panel, at the end, is the same machine behind sixteen registers on a byte bus.
 *
 * No call uses a heap or memory of its own that stays, so calls on separate buffers may run at the same time. Of other libraries only memcpy
 * and memset are needed. On the stack a run takes some 104 KB, a step and a write to the panel 38 KB, a sweep 16 KB, a listing 13 KB, every
 * other call 10 to 12 KB (measured by examples/stack.c).
 */
#ifndef CABINET_H
#define CABINET_H

#include <stddef.h>
#include <stdint.h>

#ifdef __cplusplus
extern "C" {
#endif

enum {
    /* the most bytes of a job, a state or a result */
    CABINET_BYTE_LIMIT = 32768,
    /* stands for no partner, in a step and among the partners of a place */
    CABINET_NO_PARTNER = 65535
};

/* Why a call is refused. They are judged in this order, but among 2 to 6 and 14 the lowest offset in the input decides. 15 is given by
 * cabinet_load alone. */
enum cabinet_refusal {
    /* not refused */
    CABINET_ACCEPTED = 0,

    /* the job, state or process is longer than CABINET_BYTE_LIMIT */
    CABINET_INPUT_TOO_LONG = 1,
    /* a field, F, N, a count or a reference goes past the end of the field around it, or of the input */
    CABINET_PAST_THE_END = 2,
    /* a tag that is not due at its place */
    CABINET_TAG_NOT_DUE = 3,
    /* bytes left in a field behind its parts, or behind the job, state or process */
    CABINET_BYTES_LEFT = 4,
    /* a process too deep, or ambients nested deeper than 8; in cabinet_list deeper than 16 */
    CABINET_TOO_DEEP = 5,
    /* F, N or a reference out of range; F is 1 to 1,024 in a job, and 0 to 1,024 in a state */
    CABINET_OUT_OF_RANGE = 6,
    /* the count of a 38 to 3B is 1, or above 4; judged with 2 to 6 */
    CABINET_COUNT_OUT_OF_RANGE = 14,
    /* a job in which a free name is used both as a box (an ambient's name or target, or the cabinet's name 0) and as a channel */
    CABINET_BOX_AS_CHANNEL = 15,
    /* a state in which two blocked actions answer each other */
    CABINET_BLOCKED_PAIR = 7,

    /* no element at the place, or a blocked one, or an ambient whose contents are not all blocked */
    CABINET_CANNOT_ACT = 8,
    /* a partner was named that is not a blocked partner of the place */
    CABINET_NOT_A_PARTNER = 9,
    /* no partner was named, but the place has one */
    CABINET_PARTNER_EXISTS = 10,
    /* a restriction, and no name is left: N is 4,096 */
    CABINET_NAMES_USED_UP = 11,
    /* the result would have a process deeper than 34, or ambients nested deeper than 8 */
    CABINET_RESULT_TOO_DEEP = 12,
    /* the result would be longer than CABINET_BYTE_LIMIT or than the output buffer */
    CABINET_RESULT_TOO_LONG = 13
};

/* How a run ended. The limits have the numbers of the refusals that the next step would get. */
enum cabinet_ending {
    /* no place can act any more */
    CABINET_ENDED_BLOCKED = 0,
    /* the budget is spent */
    CABINET_ENDED_SPENT = 1,
    CABINET_ENDED_AT_NAMES = 11,
    CABINET_ENDED_AT_DEPTH = 12,
    CABINET_ENDED_AT_LENGTH = 13
};

/* In the answers `refusal` is one of enum cabinet_refusal, `ending` one of enum cabinet_ending. */

struct cabinet_length_answer {
    uint32_t refusal;
    /* how many bytes were written */
    uint32_t length;
};

struct cabinet_partners_answer {
    uint32_t refusal;
    /* the lowest place of a partner, or CABINET_NO_PARTNER where there is none */
    uint32_t lowest;
    /* how many partners there are, which may be 0 */
    uint32_t count;
};

struct cabinet_step_answer {
    uint32_t refusal;
    /* the number of the rule, 29 to 43 */
    uint32_t rule;
    /* how many bytes were written */
    uint32_t length;
};

struct cabinet_run_answer {
    uint32_t refusal;
    uint32_t ending;
    /* how many steps were taken */
    uint32_t steps;
    /* how many bytes were written */
    uint32_t length;
};

struct cabinet_weight_answer {
    uint32_t refusal;
    uint32_t weight;
};

/* The job of F, given as `free`, and of one process in its bytes, written to `out`; it is five bytes longer than the process. May refuse with
 * 1 where the process is longer than CABINET_BYTE_LIMIT, then with 6 where F is 0 or above 1,024, then with 2 to 6 or 14 for what is wrong in the
 * process, 4 also for bytes behind it, and with 13, which goes by the length of the job. Written too are a job of more than 32,758 bytes, which is too
 * long to be loaded, and one in which a name is used both as a box and as a channel, which loading refuses with 15. */
struct cabinet_length_answer cabinet_write_job(
    uint16_t free,
    const uint8_t *process, size_t process_length,
    uint8_t *out, size_t out_length);

/* The state of a job, written to `out`: its process in one ambient, the cabinet, whose name is name 0, so that the job can address it. F is the job's,
 * and so is N. The state is ten bytes longer than the job, so the longest job that is loaded has 32,758 bytes. May refuse with 1 to 6 and 14, 6 also
 * where F is 0, judged where F stands; then with 15 where a free name stands in the job both as the name of a 23 or the a of a 30, 34 or 38 and as the x
 * of an action, name 0 counting as a box's in every job; and then with 13. All calls below take states with other roots too, with F = 0, and with names
 * that are used as both. */
struct cabinet_length_answer cabinet_load(
    const uint8_t *job, size_t job_length,
    uint8_t *out, size_t out_length);

/* The places of a state that can act, ascending, two bytes each with the high byte first, written to `out`. It alone reads a state with ambients nested
 * deeper than 8, up to 16, so that what could still act in one that was stored can be seen; every other call refuses such a state with 5. May refuse
 * with 1 to 7, 13 and 14. */
struct cabinet_length_answer cabinet_list(
    const uint8_t *state, size_t state_length,
    uint8_t *out, size_t out_length);

/* The partners of a place: how many blocked actions the action at the place could meet in a step, by rules 35 to 42, and the lowest place of one.
 * It is for a technician who chooses the partner: cabinet_step takes any of them, and a run takes the lowest. A place that steps by rules 29 to 34
 * has none. No byte is written. May refuse with 1 to 7 and 14, then with 8 where the place cannot act. */
struct cabinet_partners_answer cabinet_partners(
    const uint8_t *state, size_t state_length,
    uint16_t place);

/* One step of a state at a place, with a partner's place or CABINET_NO_PARTNER. The state after it is written to `out`. May refuse with
 * 1 to 14. */
struct cabinet_step_answer cabinet_step(
    const uint8_t *state, size_t state_length,
    uint16_t place, uint16_t partner,
    uint8_t *out, size_t out_length);

/* Runs a state for at most `budget` steps, each at the lowest place that can act, with its lowest partner or none. The last state is written
 * to `out`. May refuse with 1 to 7 and 14, and with 13 where `out` is shorter than the state; where a later state does not fit, the run is accepted
 * and ends with 13 in the one before it. */
struct cabinet_run_answer cabinet_run(
    const uint8_t *state, size_t state_length,
    uint16_t budget,
    uint8_t *out, size_t out_length);

/* The weight of a state. May refuse with 1 to 7 and 14. */
struct cabinet_weight_answer cabinet_weight(
    const uint8_t *state, size_t state_length);

/* A state without its empty boxes, written to `out`: an ambient, 40 or 41, is removed if it is empty, its name is F or above, and that name stands
 * nowhere else in the state: as no other ambient's name and in no process or action, however deep. This is repeated until there is none, so that an
 * ambient that was emptied may go too. Everything else stays as it is and in its order, F and N among it; the state means the same as before, is no
 * longer and weighs no more, so a buffer as long as the state holds the result. It is no step, and places are counted anew. May refuse with 1 to 7 and
 * 14, and with 13 where the result is longer than `out`. */
struct cabinet_length_answer cabinet_sweep(
    const uint8_t *state, size_t state_length,
    uint8_t *out, size_t out_length);

/*
 * The front panel.
 *
 * Sixteen registers of one byte on a byte bus, over one state. The panel is a record, struct cabinet_panel, and the state stands at the front of
 * a buffer; the caller keeps both and lends them to each access. Nothing is kept anywhere else.
 *
 *     address    register              written                          read
 *     0          command               1 step, 2 acknowledge,           0
 *                                      any other value nothing
 *     1          flags                 nothing                          bit 0 all blocked, bit 1 step done, bit 2 refused
 *     2          interrupt enable      stored                           as written
 *     3          last refusal          nothing                          the number, enum cabinet_refusal
 *     4, 5       place                 stored                           as written
 *     6, 7       partner               stored; 65,535 is none           as written
 *     8          last rule             nothing                          the number, 29 to 43
 *     9, 10      weight                nothing                          the weight of the last accepted result
 *     11 to 15   none                  nothing                          0
 *     16 to 255  none                  nothing                          0
 *
 * Of a pair the most significant byte has the lower address. The command is not stored.
 *
 * Start. cabinet_panel_start comes before the first access and whenever another state was put in the buffer; before it the record holds anything.
 * It sets the length of the state and every register to 0. So the partner is then place 0: for none, write 255 to 6 and 7. It does not look at
 * the state, so bit 0 is 0 even where all is blocked; a step is then refused with 8.
 *
 * Step. It is a write of 1 to the command, with the state's buffer and a second one lent, and all is done when it returns. It takes the step that
 * cabinet_step takes, of as many bytes at the front of the state's buffer as the record's length says, at the place and with the partner in the
 * registers. It is refused with 2 where that length is greater than the buffer's, whatever it is; with 13 where the result is longer than
 * CABINET_BYTE_LIMIT or than the shorter of the two buffers; and otherwise as cabinet_step is, 1 to 14. Two buffers of CABINET_BYTE_LIMIT bytes
 * hold every result.
 *     Accepted: the result stands at the front of both buffers, and every byte behind it in both is as it was. The record's length is the
 *     result's, registers 8 to 10 are renewed, bit 1 is set, bit 2 cleared, and bit 0 set if the result weighs 0, which is if no place of it can
 *     act, and else cleared. Register 3 stays.
 *     Refused: both buffers are as they were. Register 3 is renewed, bit 2 set and bit 1 cleared. Bit 0, registers 8 to 10 and the length stay.
 *
 * Acknowledge. A write of 2 to the command clears bits 1 and 2. Bit 0 and register 3 stay.
 *
 * Polling. Write place and partner, write 1 to the command, read the flags: bit 1 or bit 2 is set. Read 8 to 10 or 3 accordingly, and acknowledge.
 * While bit 0 is set no place can act.
 *
 * Interrupts. The line is high while a flag is set whose bit in register 2 is set too: cabinet_panel_line gives 1, and else 0. With 6 in register 2
 * it goes high with each step, accepted or refused, and low with the acknowledge; with bit 0 enabled too it stays high once all is blocked.
 *
 * Memory. The record, the state's buffer and the second buffer overlap nowhere. The second buffer may be another one in each write, of any length
 * and contents; what it holds afterwards is of no use to the panel. A write that is no step changes neither buffer. Accesses to one panel come one
 * after another. Nobody else writes to the record, or to the state's buffer between a start and the last step.
 */

enum {
    CABINET_PANEL_REGISTERS = 16
};

/* The addresses of the registers. */
enum cabinet_panel_register {
    CABINET_PANEL_COMMAND = 0,
    CABINET_PANEL_FLAGS = 1,
    CABINET_PANEL_ENABLE = 2,
    CABINET_PANEL_REFUSAL = 3,
    CABINET_PANEL_PLACE_HIGH = 4,
    CABINET_PANEL_PLACE_LOW = 5,
    CABINET_PANEL_PARTNER_HIGH = 6,
    CABINET_PANEL_PARTNER_LOW = 7,
    CABINET_PANEL_RULE = 8,
    CABINET_PANEL_WEIGHT_HIGH = 9,
    CABINET_PANEL_WEIGHT_LOW = 10
};

/* What is written to CABINET_PANEL_COMMAND. */
enum cabinet_panel_command {
    CABINET_PANEL_IDLE = 0,
    CABINET_PANEL_STEP = 1,
    CABINET_PANEL_ACKNOWLEDGE = 2
};

/* The bits of CABINET_PANEL_FLAGS and of CABINET_PANEL_ENABLE. */
enum cabinet_panel_flag {
    CABINET_PANEL_ALL_BLOCKED = 1,
    CABINET_PANEL_STEP_DONE = 2,
    CABINET_PANEL_REFUSED = 4
};

struct cabinet_panel {
    /* how many bytes at the front of the state's buffer are the state */
    uint32_t length;
    /* by their addresses */
    uint8_t registers[CABINET_PANEL_REGISTERS];
};

/* Sets the length of the state, and every register to 0. */
void cabinet_panel_start(struct cabinet_panel *panel, uint32_t length);

/* What a register reads as. Changes nothing. */
uint8_t cabinet_panel_read(const struct cabinet_panel *panel, uint8_t address);

/* Writes to a register, with the state's buffer and a second one lent. */
void cabinet_panel_write(
    struct cabinet_panel *panel,
    uint8_t address, uint8_t value,
    uint8_t *state, size_t state_length,
    uint8_t *spare, size_t spare_length);

/* The interrupt line: 1 while it is high, 0 while it is low. Changes nothing. */
uint8_t cabinet_panel_line(const struct cabinet_panel *panel);

#ifdef __cplusplus
}
#endif

#endif
