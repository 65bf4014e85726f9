/* The job of document 01's session. */
#include <stdint.h>

/* Of adapter 0, deck 1 and channel 2: the adapter enters the deck on the channel, and the deck accepts on it. The name 0 is also that of the
 * cabinet in which both stand once the job is loaded. */
static const uint8_t job[] = {
    0x10, 0, 39, 0, 3,               /* a job with 3 free names */
    0x21, 0, 34,                     /* in parallel */
    0x23, 0, 15, 0, 0,               /* ambient 0 */
    0x24, 0, 10,                     /* an action, then null */
    0x34, 0, 4,  0, 1, 0, 2,         /* enter 1 on 2 */
    0x20, 0, 0,
    0x23, 0, 13, 0, 1,               /* ambient 1 */
    0x24, 0, 8,                      /* an action, then null */
    0x36, 0, 2,  0, 2,               /* accept on 2 */
    0x20, 0, 0,
};
