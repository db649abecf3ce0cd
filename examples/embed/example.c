/* Two handlers under the pipeline: what enters on side 1 goes over `mid` to side 2, which sends it out
 * twice. The steps run by words, a right claim and wrong ones are checked, and the same runs as text.
 * With the handler of side 1 on both sides, what side 2 sends on `mid` strands: the positions are asked. */
#include "bench.h"

#include <stdio.h>
#include <stdlib.h>
#include <string.h>

#define COUNT(list) (sizeof(list) / sizeof *(list))

enum { PIPELINE = 2, STEPS = 11 };

static const uint32_t tables[] = {
    6, 0, 1, 0, 1, /* side 1, node 0: !in^parent y. node 1 */
    4, 2, 1, 0, 0, /* node 1: mid^parent y */
    10,            /* its pool: the pattern y and the value y are one word */
    6, 2, 1, 0, 1, /* side 2, node 0: !mid^parent y. node 1 */
    4, 1, 1, 1, 0, /* node 1: out^parent <y y> */
    10, 4000002, 10, 10,
};
static const uint32_t lengths[] = {10, 1, 10, 4};

static const uint32_t steps[] = {
    1, 1, 0, 0, 1, 20, /* enter 20 on side 1 */
    2, 1, 0, 0, 0,     /* down into side 1's box */
    5, 1, 1, 0, 0,     /* meet the input */
    3, 1, 1, 0, 0,     /* up on `mid`, to the shelf */
    8, 2, 0, 0, 0,     /* side 2 takes it */
    2, 2, 0, 0, 0,     /* down into side 2's box */
    5, 2, 1, 0, 0,     /* meet the input */
    3, 2, 1, 0, 0,     /* up on `out` */
    6, 2, 0, 0, 0,     /* pass */
    7, 2, 0, 0, 0,     /* leave */
    7, 2, 0, 0, 0,     /* nothing is left to leave: refused */
};
/* The steps without the last, which is refused. */
static const size_t legal_len = COUNT(steps) - 5;

/* The handler of side 1 on both sides. */
static const uint32_t tables_alike[] = {
    6, 0, 1, 0, 1, 4, 2, 1, 0, 0, 10, /* side 1 */
    6, 0, 1, 0, 1, 4, 2, 1, 0, 0, 10, /* side 2 */
};
static const uint32_t lengths_alike[] = {10, 1, 10, 1};

static const uint32_t steps_stranding[] = {
    1, 2, 0, 0, 1, 20, /* enter 20 on side 2 */
    2, 2, 0, 0, 0,     /* down into side 2's box */
    5, 2, 1, 0, 0,     /* meet the input */
    3, 2, 1, 0, 0,     /* up on `mid`: it arrives at position 0 of the lobby and is stranded */
    6, 2, 0, 0, 0,     /* it does not pass: refused */
    1, 2, 0, 0, 1, 21, /* enter 21, to position 1 */
    1, 2, 0, 0, 1, 22, /* enter 22, to position 2 */
    2, 2, 2, 0, 0,     /* 22 goes down */
    5, 2, 1, 0, 0,     /* meet the input */
    3, 2, 1, 0, 0,     /* up on `mid`, to position 2 behind 21 */
};

/* Tables of both sides and steps. */
typedef struct {
    const uint32_t *tables;
    size_t tables_len;
    const uint32_t *lengths;
    size_t lengths_len;
    const uint32_t *steps;
    size_t steps_len;
} Script;

static const Script doubling = {tables, COUNT(tables), lengths, COUNT(lengths), steps, COUNT(steps)};
static const Script stranding = {tables_alike,    COUNT(tables_alike), lengths_alike, COUNT(lengths_alike),
                                 steps_stranding, COUNT(steps_stranding)};

static const uint32_t labels[] = {
    0, 1, 1, 20,              /* in1 20 */
    1, 2, 3, 4000002, 20, 20, /* out2 <20 20> */
};

static const char text[] = "W\t2\n"
                           "N\t1\t6\t0\t1\t0\t1\nN\t1\t4\t2\t1\t0\t0\n"
                           "N\t2\t6\t2\t1\t0\t1\nN\t2\t4\t1\t1\t1\t0\n"
                           "V\t1\t10\nV\t2\t10\nV\t2\t4000002\nV\t2\t10\nV\t2\t10\n"
                           "S\t1\t1\t0\t0\t20\nS\t2\t1\t0\t0\nS\t5\t1\t1\t0\nS\t3\t1\t1\t0\n"
                           "S\t8\t2\t0\t0\nS\t2\t2\t0\t0\nS\t5\t2\t1\t0\nS\t3\t2\t1\t0\n"
                           "S\t6\t2\t0\t0\nS\t7\t2\t0\t0\nS\t7\t2\t0\t0\n";

static const char *const sorts[] = {"silent", "in", "out", "refused", "log"};

/* Prints one answer of 20 words. */
static void print_answer(size_t index, const uint32_t *answer)
{
    printf("%zu %s", index, sorts[answer[0]]);
    if (answer[0] == 3)
        printf(" %u", (unsigned)answer[1]);
    printf(" side %u:", (unsigned)answer[2]);
    for (uint32_t k = 0; k < answer[3]; k++)
        printf(" %u", (unsigned)answer[4 + k]);
    printf("\n");
}

/* Runs all steps, at most STEPS, and prints the answers. */
static void run(uint32_t wrapper, const Script *script)
{
    uint32_t out[STEPS * BENCH_ANSWER_WORDS];
    size_t numbers[3];
    size_t result = bench_run(wrapper, script->tables, script->tables_len, script->lengths, script->lengths_len,
                              script->steps, script->steps_len, out, COUNT(out), numbers);
    printf("run under wrapper %u: %zu, numbers %zu %zu %zu\n", (unsigned)wrapper, result, numbers[0], numbers[1],
           numbers[2]);
    for (size_t k = 0; result == 0 && k < numbers[0]; k++)
        print_answer(k, out + k * BENCH_ANSWER_WORDS);
}

/* Prints the stranded positions of a side, asked with so many words for them, at most 16. */
static void ask_stranded(const Script *script, uint32_t side, size_t room)
{
    uint32_t out[BENCH_STRANDED_WORDS];
    size_t numbers[3];
    size_t result = bench_stranded_after(PIPELINE, script->tables, script->tables_len, script->lengths,
                                         script->lengths_len, script->steps, script->steps_len, side, out, room,
                                         numbers);
    printf("stranded on side %u, in %zu words: %zu, numbers %zu %zu %zu:", (unsigned)side, room, result, numbers[0],
           numbers[1], numbers[2]);
    for (size_t k = 0; result == 0 && k < numbers[0]; k++)
        printf(" %u", (unsigned)out[k]);
    printf("\n");
}

/* Checks a claim of so many words of the steps and of these labels. */
static void check(const char *what, size_t steps_len, const uint32_t *claimed, size_t claimed_len)
{
    size_t place[2];
    size_t verdict = bench_check_trace(PIPELINE, tables, COUNT(tables), lengths, COUNT(lengths), steps, steps_len,
                                       claimed, claimed_len, place);
    printf("%s: %zu, place %zu %zu\n", what, verdict, place[0], place[1]);
}

static void check_claims(void)
{
    uint32_t wrong[COUNT(labels)];
    memcpy(wrong, labels, sizeof labels);
    wrong[COUNT(wrong) - 1] = 21;
    check("right claim", legal_len, labels, COUNT(labels));
    check("another last word", legal_len, wrong, COUNT(wrong));
    check("a label missing", legal_len, labels, 4);
    check("a refused step", COUNT(steps), labels, COUNT(labels));
    check("a step that breaks off", legal_len - 1, labels, COUNT(labels));
}

/* Runs the text with so much room and prints the output. */
static int run_text(size_t room)
{
    size_t bytes;
    uint8_t *out = malloc(room);
    if (out == NULL)
        return 1;
    size_t result = bench_text((const uint8_t *)text, sizeof text - 1, out, room, &bytes);
    printf("text in %zu bytes: %zu, %zu bytes\n", room, result, bytes);
    fwrite(out, 1, bytes, stdout);
    free(out);
    return 0;
}

int main(void)
{
    run(PIPELINE, &doubling);
    run(1, &doubling);
    check_claims();
    run(PIPELINE, &stranding);
    ask_stranded(&stranding, 2, BENCH_STRANDED_WORDS);
    ask_stranded(&stranding, 2, 1);
    ask_stranded(&stranding, 1, 0);
    if (run_text(4) != 0 || run_text(BENCH_TEXT_BYTES) != 0) {
        fprintf(stderr, "example: no memory\n");
        return 1;
    }
    return 0;
}
