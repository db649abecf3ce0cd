/* The repeater bench for C and C++: a run as text, a run by words, the check of a maker's trace, and the
 * stranded messages after a run.
 *
 * The functions are in libembed.a (`rt lib` in crates/embed writes it to crates/embed/out/), for x86-64.
 * They read what is lent to them and write only to `out`, `bytes`, `numbers` and `place`; they keep
 * nothing between two calls. The library asks for memcpy and memset and for nothing else from outside.
 *
 * Asked of the caller, for every function:
 *   - no pointer is null, also where its length is 0: a length of 0 with any other pointer is an empty list;
 *   - each list has as many elements as its length says, and pointers are aligned for their type;
 *   - what is written to (`out`, `bytes`, `numbers`, `place`) overlaps nothing else that is lent;
 *   - nothing else writes to what is lent while a call runs.
 * Whatever numbers the lists hold, every call comes back with one of the results given below.
 *
 * They run on the caller's stack, and 1,024 KB of it are enough: on the deepest tables bench_text was
 * measured to use 516 KB and the others 131 KB, and longer lists do not make it more (tests/linked/stack).
 *
 * TABLES AND LENGTHS
 *
 * `tables` is one list of words: side 1's nodes, side 1's pool, side 2's nodes, side 2's pool, with
 * nothing between them. `lengths` has the number of words of each of these four parts, in this order.
 * A missing length counts as 0, a part is cut where `tables` ends, and words and lengths past side
 * 2's are not looked at. Under wrappers 1 and 3 both parts of side 2 must be empty.
 *
 * A node is 5 words: the kind, then four fields; fields that a kind does not use are 0.
 *   0 nil                  -         -           -                  -
 *   1 parallel             left      right       -                  -
 *   2 box                  name      body        -                  -
 *   3 new                  name      body        -                  -
 *   4 output               channel   tag         place of value     -
 *   5 input                channel   tag         place of pattern   body
 *   6 replicated input     channel   tag         place of pattern   body
 * left, right and body are node numbers (not places of words), each above its own node's. Names are
 * 0 to 63: 0 is `in`, 1 is `out`, 2 is `mid`, 3 is `log`. A tag is 0 (within the box), 1 (parent) or
 * 2 + n (child box named n). A place is that of the first word in the side's pool.
 *
 * A value is a name, or 4000000 + k (k from 0 to 15) followed by k values; at most 16 words. A
 * pattern is likewise; its names bind, none twice, and 4999999 takes anything and binds nothing.
 * A value that enters may also hold names that were minted and have left (65536 x side + serial, serial
 * 0 to 255), and names from outside (196608 to 196863).
 *
 * WRAPPERS: 1 filter, 2 pipeline, 3 logging.
 *
 * STEPS: one record after the other, each of 5 + count words:
 *   kind, side, i, j, count, then `count` value words
 * Kinds: 1 enter, 2 down, 3 up, 4 descend, 5 meet, 6 pass, 7 leave, 8 take. Only enter has value
 * words. A record breaks off where the list ends before the record does.
 *
 * LABELS: one record after the other, each of 3 + count words:
 *   channel, side, count, then `count` value words
 * Channels: 0 in, 1 out, 3 log. A silent step has no label record.
 *
 * STRANDED: a message in a side's lobby that arrived there on a channel other than `out`. It can neither
 * go down, pass nor leave, and stays for the rest of the run. Its position is the i that a step would name
 * it by, 0 to 15; it gets smaller when a message before it goes, and what strands later stands behind it.
 *
 * ANSWERS: 20 words for each step:
 *   0       the sort: 0 silent, 1 in, 2 out, 3 refused, 4 log
 *   1       the refusal's number, 10 to 17; 0 if the step is not refused
 *   2       the side, as the step asked
 *   3       how many value words there are, 0 to 16
 *   4..19   the value words, 0 past their number
 *
 * NUMBERS
 *
 * Load (the node is the lowest at fault, 0 for 1 and 7):
 *    1  wrapper unknown (side 0); node words no multiple of 5; 0 or over 256 nodes; pool over 1024
 *       words; side 2 not empty under wrapper 1 or 3
 *    2  unknown kind, or an unused field that is not 0
 *    3  a child not above its parent or not in the table; a node other than 0 not a child exactly once
 *    4  a box, new or channel name over 63; a tag over 65
 *    5  a value or pattern malformed, over 16 words, past the pool, or a name twice in a pattern
 *    6  over 8 bound names in force
 *    7  the start exceeds 32 particles, 16 boxes or 256 minted names
 * A step (a refused step changes nothing, and the steps after it go on):
 *   10  no such kind, side or position; unused i or j not 0; value words in kinds 2 to 8; take by
 *       another than side 2, or under another wrapper than 2
 *   11  the entered value is malformed, empty or over 16 words, or has a word that is no such name
 *   12  the entered value holds a minted name that has not left
 *   13  the thing at that position cannot make this step
 *   14  the pattern does not take the value
 *   15  a name bound to a tuple is used in the body as channel, tag or box name
 *   16  an unfolded output's value exceeds 16 words
 *   17  the state after would pass a limit on particles, boxes, minted names, lobby or shelf
 * A claim (tested in this order, after load):
 *   20  a step is refused or its record breaks off: the index, from 0, of the first such record
 *   21  the labels are not as claimed: the first index where claim and run part. With too few claimed
 *       it is how many are claimed; a label over, or a record that breaks off, is at its own index
 * Stranded positions (after load and the steps):
 *   22  `out` has fewer words than the side has stranded messages
 */
#ifndef BENCH_H
#define BENCH_H

#include <stddef.h>
#include <stdint.h>

#ifdef __cplusplus
extern "C" {
#endif

/* Bytes of `out` that are enough for bench_text, whatever the input. */
#define BENCH_TEXT_BYTES ((size_t)206848)
/* Words of one answer of bench_run. */
#define BENCH_ANSWER_WORDS ((size_t)20)
/* Words of `out` that are enough for bench_stranded_after: a lobby has at most so many messages. */
#define BENCH_STRANDED_WORDS ((size_t)16)

/* Runs an input of the bench program (lines W, N, V, S) and writes the program's output.
 *   0  the output is at the front of `out`, *bytes of it; the bytes behind it stay as they were
 *   1  `out` is too short: nothing is written to it, and *bytes is 0
 */
size_t bench_text(const uint8_t *input, size_t input_len, uint8_t *out, size_t out_len, size_t *bytes);

/* Loads the tables, runs the steps and writes 20 words for each answer. Tested in this order:
 *   2  a step record breaks off; numbers = 0, 0, 0
 *   3  `out` has fewer than 20 words for each step; numbers = 0, 0, 0
 *   1  load refuses; numbers = number (1 to 7), side, node
 *   0  done; numbers = how many answers, 0, 0; the words of `out` behind the answers stay as they were
 * Nothing is written to `out` unless 0 is returned.
 */
size_t bench_run(uint32_t wrapper, const uint32_t *tables, size_t tables_len, const uint32_t *lengths,
                 size_t lengths_len, const uint32_t *steps, size_t steps_len, uint32_t *out, size_t out_len,
                 size_t numbers[3]);

/* Checks a maker's trace: whether the tables load, every step is legal, and the visible labels come
 * out as claimed, none missing and none over.
 *   0        accepted; place = 0, 0
 *   1 to 7   load refuses with this number; place = side, node
 *   20, 21   see above; place = 0, index
 */
size_t bench_check_trace(uint32_t wrapper, const uint32_t *tables, size_t tables_len, const uint32_t *lengths,
                         size_t lengths_len, const uint32_t *steps, size_t steps_len, const uint32_t *labels,
                         size_t labels_len, size_t place[2]);

/* Loads the tables, runs the steps and writes the positions of all stranded messages of a side, smallest
 * first. Refused steps change nothing and the steps after them go on. A side that the wrapper lacks has no
 * stranded messages. Tested in this order:
 *   1    load refuses; numbers = number (1 to 7), side, node
 *   2    a step record breaks off; numbers = 0, 0, 0
 *   22   see above; numbers = 0, 0, 0
 *   0    done; numbers = how many positions, 0, 0; the words of `out` behind them stay as they were
 * Nothing is written to `out` unless 0 is returned.
 */
size_t bench_stranded_after(uint32_t wrapper, const uint32_t *tables, size_t tables_len, const uint32_t *lengths,
                            size_t lengths_len, const uint32_t *steps, size_t steps_len, uint32_t side, uint32_t *out,
                            size_t out_len, size_t numbers[3]);

#ifdef __cplusplus
}
#endif

#endif
