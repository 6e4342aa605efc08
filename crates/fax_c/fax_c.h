/* The calls of the crate fax_c: page texts of ITU-T T.4, read and written by proved code.

   Slices. Each pointer comes with a count of elements, not of octets. It points to that many elements,
   aligned for their type, and to none outside of what the caller may use; where the count is 0 it may be
   NULL. The slice that a call writes overlaps no slice that it reads.

   What is written. A call that ends with status 0 has filled the first `filled` elements of its slice, never
   more than `room`, and left the others as they were. A call that ends with another status has changed
   nothing in the slice, and `filled` is 0: it tells the refusal before it writes.

   Ownership. Nothing is kept: no call remembers a pointer, hands out memory, or holds any when it is done.
   Each takes memory (malloc) for the rows of the page while it runs.

   Threads. The calls share no state. They may run in several threads at once, as long as none writes a
   slice that another reads or writes.

   Linking. crates/fax_c/out/libfax_c.a (`rt lib` in crates/fax_c), and after it liblibc_c.a of the Rattle
   kit, in the folder `c` beside its START-HERE.md: see the Makefile. example.c, beside this file, is a whole
   program. */
#ifndef FAX_C_H
#define FAX_C_H

#include <stdbool.h>
#include <stddef.h>
#include <stdint.h>

#ifdef __cplusplus
extern "C" {
#endif

/* Of several refusals that hold, the one that comes first is told: that the width is none; that the least
   bits are too many; where a page is read, that there is no EOL; where one is written, that the run lengths are
   those of no page (FAX_EMPTY, FAX_TOO_MANY_ROWS, FAX_NO_RUNS). These are told in place of FAX_NO_MEMORY, also
   where memory is refused; all but FAX_TOO_MANY_ROWS and FAX_NO_RUNS before any is taken. The other faults of a
   page that is read come while its rows are taken into memory, so FAX_NO_MEMORY may be told in their place.
   Last comes FAX_NO_ROOM. */
enum {
    FAX_DONE = 0,
    /* no EOL in the octets */
    FAX_NO_EOL = 1,
    /* a line that cannot be read: after so many rows as `rows` says */
    FAX_BAD_LINE = 2,
    /* no whole return to control after the rows */
    FAX_NO_RTC = 3,
    /* a page of no rows */
    FAX_EMPTY = 4,
    /* more than 65,535 rows */
    FAX_TOO_MANY_ROWS = 5,
    FAX_NO_MEMORY = 6,
    /* the slice has less room than `wanted` says: with so much the call ends with FAX_DONE, memory aside */
    FAX_NO_ROOM = 7,
    /* the width is not 1728, 2048 or 2432 */
    FAX_NO_WIDTH = 8,
    /* after so many rows as `rows` says come no run lengths of a row */
    FAX_NO_RUNS = 9,
    /* least_bits is above FAX_MOST_LEAST_BITS */
    FAX_LEAST_BITS = 10
};

/* a page has no more rows */
#define FAX_MOST_ROWS 65535
#define FAX_MOST_LEAST_BITS 65535

typedef struct {
    /* one of those above */
    uint32_t status;
    /* with FAX_DONE the rows of the page, with FAX_BAD_LINE and FAX_NO_RUNS those before the one at fault,
       and otherwise 0 */
    uint32_t rows;
    /* how many elements of the slice were filled, from its start */
    size_t filled;
    /* with FAX_NO_ROOM how many elements the slice must have, and otherwise 0 */
    size_t wanted;
} fax_outcome;

/* Reads the page that `count` octets mean, the most significant bit first, in rows of `width` elements; where
   `two_dimensional` its lines are in MR coding, with tags, and otherwise in MH. Puts the lengths of its runs,
   in elements, into `runs`: white first in each row (0, where the row begins with black), row after row.
   Room: a row has width + 1 runs at most, so rows * (width + 1) elements are enough; a call with no room tells
   how many the page has. */
fax_outcome fax_read_runs(const uint8_t *octets, size_t count, uint16_t width, bool two_dimensional,
                          uint16_t *runs, size_t room);

/* Reads the page as fax_read_runs does, and puts its picture elements into `pixels`: eight in an octet, the
   leftmost in the most significant bit, 1 for black, row after row.
   Room: rows * (width / 8) octets, which is what is filled; FAX_MOST_ROWS * (width / 8) hold any page. */
fax_outcome fax_read_pixels(const uint8_t *octets, size_t count, uint16_t width, bool two_dimensional,
                            uint8_t *pixels, size_t room);

/* Writes the page whose rows have these run lengths, as fax_read_runs gives them: each row's sum is `width`,
   and none of its runs but the first is 0. Puts the text into `octets`. Where `two_dimensional` it is in MR
   coding, with T.4's parameter K of 4 where `fine` and of 2 otherwise. Each line has, with its fill and its
   EOL, `least_bits` bits at least: 0 to FAX_MOST_LEAST_BITS.
   Room: a call with no room tells how many octets the text has. */
fax_outcome fax_write_runs(const uint16_t *runs, size_t count, uint16_t width, bool two_dimensional,
                           bool fine, uint32_t least_bits, uint8_t *octets, size_t room);

#ifdef __cplusplus
}
#endif

#endif
