/* Lukwaizo for a host in C: whether one processor suffices for a plan under earliest deadline first.
 *
 * Link target/staticlib/libimage.a, which `tools/staticlib` writes. docs/HOST.md says how,
 * docs/IMAGE.md what the bytes of an image are, docs/REFUSALS.md what each number means.
 */
#ifndef LUKWAIZO_H
#define LUKWAIZO_H

#include <stddef.h>
#include <stdint.h>

#ifdef __cplusplus
extern "C" {
#endif

/* How many bytes of an image are looked at. No image that passes is longer than 2,594 bytes. */
#define LUKWAIZO_LIMIT 4096

/* What lukwaizo_check returns. It returns no other number. */
enum {
    LUKWAIZO_YES = 0,           /* the plan is granted */
    LUKWAIZO_COST = 1,          /* a cost is 0 or above 10,000,000 */
    LUKWAIZO_PERIOD = 2,        /* a period or a gap is 0 or above 10,000,000 */
    LUKWAIZO_DEADLINE = 3,      /* a deadline is 0 or above 100,000,000 */
    LUKWAIZO_JITTER = 4,        /* a jitter is not below both period and deadline */
    LUKWAIZO_SECTION = 5,       /* a bus section is above the cost or above 65,535 */
    LUKWAIZO_FRAMES = 6,        /* there is a seventeenth frame */
    LUKWAIZO_CHANNEL = 7,       /* a channel is above 63 */
    LUKWAIZO_NOT_CLOSED = 10,   /* the busy period does not close by 100,000,000 ticks */
    LUKWAIZO_LATE = 11,         /* the work that may fall due within some time, and the longest section that
                                   may be in its way, are counted as more than that time */
    LUKWAIZO_UNKNOWN_MARK = 12, /* two bytes at which a record should begin are no mark */
    LUKWAIZO_CUT = 13,          /* the image ends inside a mark or a record, or before an end mark */
    LUKWAIZO_AFTER_END = 14,    /* a byte follows the end mark */
    LUKWAIZO_LABEL = 15,        /* a label is not 1 to 16 bytes of 0x21 to 0x7E, then zeros */
    LUKWAIZO_ORDER = 16         /* channels do not rise, or a task follows a frame */
};

/* The verdict of an image: 0 for yes, 11 for late, else the number of the refusal.
 *
 * The first LUKWAIZO_LIMIT bytes of the image are looked at, or all if there are fewer; the others
 * are not read and change nothing. It is the verdict for which the program plancheck prints its
 * line: 0 where that says `yes`, 11 where it says `late`, else the number after `refused`.
 *
 * The caller sees to this, and nothing checks it:
 *   - `image` is not null, also when `length` is 0;
 *   - `length` bytes from `image` on can be read, and nobody changes them during the call.
 *
 * A length of 0 is an image of no bytes, and the answer is 13.
 *
 * The call changes nothing that the caller can see. It takes no memory from the heap, keeps nothing
 * from one call to the next and calls nothing outside the library but memcpy and memset, so several
 * threads may call it at once. It always returns. How long it takes depends on the plan, not on
 * the length of its image alone: docs/DECISIONS.md says what bounds it, docs/MEASURED.md what was measured.
 */
uint32_t lukwaizo_check(const uint8_t *image, size_t length);

#ifdef __cplusplus
}
#endif

#endif
