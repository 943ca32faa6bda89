/* Brumerola's bench rig: which task runs after a log of events. Link with librig.a (x86-64 Linux). */
#ifndef BRUMEROLA_H
#define BRUMEROLA_H

#include <stddef.h>
#include <stdint.h>

#ifdef __cplusplus
extern "C" {
#endif

/* A log of more bytes than this is not looked at. */
#define BRUMEROLA_LOG_MOST 65536u

/* What brumerola_choice answers; 0 to 15 is the position of the chosen task. */
#define BRUMEROLA_NONE 16u     /* no job is open, or the log has no events */
#define BRUMEROLA_REFUSED 32u  /* with refusal N: 32 + N */
#define BRUMEROLA_TOO_LONG 64u /* a log over BRUMEROLA_LOG_MOST bytes */

/*
 * The choice after the last event of a log, from a fresh start of a table.
 *
 * table: 1 to 16 records of 16 bytes: 54 4B, then C, D, T (4 bytes each), m, K (1 byte each).
 * log:   records of 20 bytes: 45 56, kind (tick 0, release 1, completion 2), task (1 byte each), then job and time (8 bytes each).
 * Numbers are little-endian.
 *
 * The answer is the first of these that holds:
 *   64       log_size is over 65,536; neither the table nor the log is read
 *   33 to 36 the table is refused by 1 to 4
 *   37 to 40 a record of the log, at any place in it, does not read: 5 to 8
 *   16       the log is empty
 *   0 to 15  the last event is accepted, and this task's job is chosen
 *   16       the last event is accepted, and no job is open
 *   41 to 44 the last event is refused by 9 to 12; refused events before it do not show
 * No other number is answered.
 *
 * What holds along a log whose records all read, by theorem (`guarantee-by-answers` of crates/guarantee_of_logs): ask for its first 20 n bytes, for
 * n = 1, 2 and so on. An answer below 32 says that event n was accepted, and names the choice from its time on, until the next accepted event. If every
 * task of the table has a bound, and if, once an open job has been the choice for its C ticks at tick x, no event after x and no release at x is
 * accepted while it is open, then every job of class 0 that closes was completed within its task's bound, and any K closed jobs of a task in a row hold
 * at most m misses.
 *
 * Of the caller it asks that table and log each point to as many readable bytes as their size says, and that nothing writes to them during the call.
 * Where a size is 0 the pointer is not read through: it may be NULL. The two may overlap, and need no alignment. Every content and every size is
 * lawful. Nothing is written and nothing is kept between calls, so any number of threads may call it. It calls memcpy alone, and 64 KiB of stack are
 * enough for it.
 */
uint32_t brumerola_choice(const uint8_t *table, size_t table_size, const uint8_t *log, size_t log_size);

#ifdef __cplusplus
}
#endif

#endif
