/* The proved release comparer, libreplay.a, for programs in C and C++ on x86-64.
 *
 * Link with: cc program.c -lreplay
 */
#ifndef REPLAY_H
#define REPLAY_H

#include <stddef.h>
#include <stdint.h>

#ifdef __cplusplus
extern "C" {
#endif

/* Runs the list of calls in calls[0..n) from a fresh bench, writes their replies one behind the
 * other to the front of replies[0..m), and returns the number of bytes written, at most m; the
 * bytes behind them stay as they were. It stops at the first call that is cut off, unknown, or
 * whose reply does not fit into what is left of the room.
 *
 * docs/FORMATS.md, "The list of calls", has the codes of calls and replies, and the room that each
 * reply takes.
 *
 * `calls` is only read, and must not overlap `replies`. The function takes any bytes and always
 * returns, but a compare can take long: no time is promised.
 *
 * It allocates no memory and keeps nothing between two runs, so that several threads may run it
 * at a time. The deepest search is known to take less than 2 MB of stack; a thread with 8 MB, as
 * most systems give to a program's first one, has enough.
 */
size_t replay(const uint8_t *calls, size_t n, uint8_t *replies, size_t m);

#ifdef __cplusplus
}
#endif

#endif
