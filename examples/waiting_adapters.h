/* The job of jobs/waiting-adapters. */
#include <stdint.h>

/* Of adapters 1, 2 and 3, deck 4 and channel 5: each adapter enters the deck on the channel, and the deck accepts three times on it. */
static const uint8_t job[] = {
    0x10, 0, 97, 0, 6,               /* a job with 6 free names; 0 is the cabinet's */
    0x21, 0, 92,                     /* in parallel */
    0x23, 0, 15, 0, 1,               /* ambient 1 */
    0x24, 0, 10,                     /* an action, then null */
    0x34, 0, 4,  0, 4, 0, 5,         /* enter 4 on 5 */
    0x20, 0, 0,
    0x21, 0, 71,
    0x23, 0, 15, 0, 2,               /* ambient 2 */
    0x24, 0, 10,
    0x34, 0, 4,  0, 4, 0, 5,
    0x20, 0, 0,
    0x21, 0, 50,
    0x23, 0, 15, 0, 3,               /* ambient 3 */
    0x24, 0, 10,
    0x34, 0, 4,  0, 4, 0, 5,
    0x20, 0, 0,
    0x23, 0, 29, 0, 4,               /* ambient 4 */
    0x24, 0, 24,                     /* an action, then the next, then the last, then null */
    0x36, 0, 2,  0, 5,               /* accept on 5 */
    0x24, 0, 16,
    0x36, 0, 2,  0, 5,
    0x24, 0, 8,
    0x36, 0, 2,  0, 5,
    0x20, 0, 0,
};
