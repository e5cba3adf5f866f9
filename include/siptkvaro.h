/* The line entry of Siptkvaro, for a host in C: link target/staticlib/liblines.a, which
 * `tools/make.sh library lines_c lines` makes of the crate lines_c. */
#ifndef SIPTKVARO_H
#define SIPTKVARO_H

#include <stddef.h>
#include <stdint.h>

#ifdef __cplusplus
extern "C" {
#endif

/* The longest line that passes question 1, in characters. */
#define SIPTKVARO_LONGEST_LINE 296

/* The longest reply, in places: lent as many, no line is answered with 8. */
#define SIPTKVARO_LONGEST_REPLY 732

/* Replies to kinds 11 to 15 hex: the places of the count of the shape's calls of `check`
 * and of the cause of the last one, two digits each. */
#define SIPTKVARO_CALLS 728
#define SIPTKVARO_CAUSE 730

/* The first test of that call that failed, in the order in which they are made; or that its
 * attempt took the square root of a number below zero or of a NaN, which comes first. */
enum siptkvaro_cause {
    SIPTKVARO_YES = 0,
    SIPTKVARO_NEGATIVE_TIME = 1,
    SIPTKVARO_T3 = 2, /* t[3], t[1], t[5]: too short for the label */
    SIPTKVARO_T1 = 3,
    SIPTKVARO_T5 = 4,
    SIPTKVARO_TOTAL = 5,
    SIPTKVARO_VELOCITY_AT_ZERO_ACCELERATION = 6,
    SIPTKVARO_END_POSITION = 7,
    SIPTKVARO_END_VELOCITY = 8,
    SIPTKVARO_END_ACCELERATION = 9,
    SIPTKVARO_ACCELERATION_LIMIT = 10,
    SIPTKVARO_VELOCITY_LIMIT = 11,
    SIPTKVARO_NO_CALL = 12,
    SIPTKVARO_NO_ROOT = 13
};

/*
 * Answers one line: `request` holds its characters, without the line feed, and
 * `reply` is lent for the answer.
 *
 * 0: the line is accepted, a no being a reply as well. The first `*filled` places
 * of `reply` hold the reply in digits 0-9 and A-F. The places after them are as
 * they were. There is no line feed and no zero at the end.
 *
 * 1 to 8: the number of the first question of document 01 with a no; `reply` is
 * as it was, and `*filled` is 0. 8 says that too few places are lent.
 *
 * Any characters and any two lengths are answered. What the host sees to:
 * - `request` points to `request_length` characters that nothing writes during
 *   the call, and `reply` to `reply_length` places and `filled` to a count that
 *   nothing else reads or writes during the call, so no two of them overlap;
 * - no pointer is null, not even where its length is 0;
 * - neither length is above PTRDIFF_MAX.
 *
 * Nothing is kept from one call to the next and nothing is allocated, so threads
 * may call it at the same time.
 */
uint32_t answer_counted(const uint8_t *request, size_t request_length,
                        uint8_t *reply, size_t reply_length, size_t *filled);

/* The same number and the same places without the count, for a host that has it from the line's kind. */
uint32_t answer_line(const uint8_t *request, size_t request_length,
                     uint8_t *reply, size_t reply_length);

#ifdef __cplusplus
}
#endif

#endif
