/* The free-round watch for C: a whole session as a text in, its answers as a text out. */
#ifndef FREE_ROUND_WATCH_H
#define FREE_ROUND_WATCH_H

#include <stddef.h>
#include <stdint.h>

#ifdef __cplusplus
extern "C" {
#endif

/* Answers the lines of `text` as the program `monitor` answers its standard input, into `out`.
 *
 * text, text_len: lines ended by '\n' (the last may lack it), fields parted by one tab. A text of more than
 *     4,294,967,295 bytes counts as ending behind the last newline among these. A NUL byte ends nothing.
 *     A move may lead from a state to itself; refusal 7, which such moves had, no longer occurs. Behind `go`, `mark` and
 *     `unmark` switch a state's pay, and the changes between `begin` and `end` are all made or none, with one answer at `end`.
 *     `ways` asks how many moves leave and enter a state, and `short` how short a round can be, within a budget of looks; both
 *     change nothing. Straight behind `game`, `kinds` says that there are up to four kinds of pay, all of which a round has to
 *     pass; `pay`, `mark` and `unmark` take a kind behind the state. Behind `go`, `kinds` goes over to another count of kinds:
 *     what follows is answered as after a load of the game as it then is.
 * out, out_len: where the answer lines go, whole lines only, each ended by '\n' and with no NUL behind the last.
 *     At most the first 65,536 bytes are used; none is changed behind the last whole line that fits.
 *
 * Returns twice the bytes written, plus 1 where the next line did not fit. Nothing is answered after that line.
 *
 * Both pointers must be valid for their lengths and not null, also where the length is 0, and the two ranges must
 * not overlap. Nothing is kept between calls, and no memory is asked for: a call needs 64 KiB of stack. */
uint64_t free_round_watch(const uint8_t *text, size_t text_len, uint8_t *out, size_t out_len);

#ifdef __cplusplus
}
#endif

#endif
