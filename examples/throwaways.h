/* The job of jobs/throwaways. */
#include <stdint.h>

/* Of reels 1, 2 and 3 and channel 4: each reel is announced in the cabinet by a local output on the channel, which is an ambient of a name that is made
 * for it and that sends to the list around it. The third is announced in another such ambient, which hands it on. The cabinet takes each announcement
 * and puts up a reel of that name. */
static const uint8_t job[] = {
    0x10, 0, 122, 0, 5,              /* a job with 5 free names */
    0x21, 0, 117,                    /* in parallel */
    0x22, 0, 18,                     /* a name is made */
    0x23, 0, 15, 128, 0,             /* an ambient of that name */
    0x24, 0, 10,                     /* an action, then null */
    0x31, 0, 4,  0, 4, 0, 1,         /* send 1 on 4 to the list around */
    0x20, 0, 0,
    0x21, 0, 93,
    0x22, 0, 18,
    0x23, 0, 15, 128, 0,
    0x24, 0, 10,
    0x31, 0, 4,  0, 4, 0, 2,
    0x20, 0, 0,
    0x21, 0, 69,
    0x22, 0, 50,
    0x23, 0, 47, 128, 0,
    0x21, 0, 42,
    0x24, 0, 18,
    0x32, 0, 2,  0, 4,               /* take a name on 4 from an ambient in this list */
    0x24, 0, 10,
    0x31, 0, 4,  0, 4, 128, 0,       /* send that name on */
    0x20, 0, 0,
    0x22, 0, 18,
    0x23, 0, 15, 128, 0,
    0x24, 0, 10,
    0x31, 0, 4,  0, 4, 0, 3,
    0x20, 0, 0,
    0x25, 0, 13,                     /* again and again */
    0x32, 0, 2,  0, 4,               /* take a name on 4 */
    0x23, 0, 5,  128, 0,             /* an ambient of the name that was taken */
    0x20, 0, 0,
};
