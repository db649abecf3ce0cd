/* How much stack the functions of the static library use: each call runs on a stack that is filled with a
 * known byte, and what is no longer that byte afterwards was used.
 *
 * usage: stack KB   prints the bytes used by each call; fails if one used more than so many KB */
#define _GNU_SOURCE
#include "bench.h"

#include <pthread.h>
#include <stdio.h>
#include <stdlib.h>
#include <string.h>
#include <sys/mman.h>

enum { STACK = 64 << 20, PAINT = 0xa5, NODES = 256, ROUNDS = 20000, TEXT_ROOM = 65536 };

/* Tables of both sides alike, with steps and labels; the text has the first of the steps. */
typedef struct {
    const char *name;
    uint32_t wrapper;
    uint32_t tables[2 * (5 * NODES + 4)];
    size_t tables_len;
    uint32_t lengths[4];
    uint32_t *steps;
    size_t steps_len;
    uint32_t *labels;
    size_t labels_len;
    char text[TEXT_ROOM];
    size_t text_len;
} Load;

/* A call to make, and what came of it. */
typedef struct {
    int function;
    Load *load;
    uint32_t *out;
    size_t out_len;
    size_t result;
    size_t numbers[3];
} Call;

static const char *const functions[] = {"nothing", "bench_text", "bench_run", "bench_check_trace",
                                        "bench_stranded_after"};
enum { FUNCTIONS = sizeof functions / sizeof *functions };

static void *make_call(void *lent)
{
    Call *call = lent;
    Load *load = call->load;
    size_t four = 4;
    if (call->function == 1)
        call->result = bench_text((const uint8_t *)load->text, load->text_len, (uint8_t *)call->out,
                                  call->out_len * sizeof *call->out, call->numbers);
    else if (call->function == 2)
        call->result = bench_run(load->wrapper, load->tables, load->tables_len, load->lengths, four, load->steps,
                                 load->steps_len, call->out, call->out_len, call->numbers);
    else if (call->function == 3)
        call->result = bench_check_trace(load->wrapper, load->tables, load->tables_len, load->lengths, four,
                                         load->steps, load->steps_len, load->labels, load->labels_len, call->numbers);
    else if (call->function == 4)
        call->result = bench_stranded_after(load->wrapper, load->tables, load->tables_len, load->lengths, four,
                                            load->steps, load->steps_len, 1, call->out, call->out_len, call->numbers);
    return NULL;
}

static void fail(const char *what)
{
    fprintf(stderr, "stack: %s\n", what);
    exit(2);
}

/* Makes the call on a stack of its own and gives how many bytes of it were used. */
static size_t measure(Call *call)
{
    pthread_t thread;
    pthread_attr_t attributes;
    unsigned char *stack = mmap(NULL, STACK, PROT_READ | PROT_WRITE, MAP_PRIVATE | MAP_ANONYMOUS, -1, 0);
    if (stack == MAP_FAILED)
        fail("no memory");
    memset(stack, PAINT, STACK);
    if (pthread_attr_init(&attributes) != 0 || pthread_attr_setstack(&attributes, stack, STACK) != 0 ||
        pthread_create(&thread, &attributes, make_call, call) != 0 || pthread_join(thread, NULL) != 0)
        fail("no thread");
    size_t unused = 0;
    while (unused < STACK && stack[unused] == PAINT)
        unused++;
    pthread_attr_destroy(&attributes);
    munmap(stack, STACK);
    return STACK - unused;
}

static void set_node(uint32_t *nodes, size_t node, uint32_t kind, uint32_t a, uint32_t b, uint32_t c, uint32_t d)
{
    const uint32_t words[] = {kind, a, b, c, d};
    memcpy(nodes + 5 * node, words, sizeof words);
}

/* !in^parent _. over 8 `new`, 15 boxes, 115 parallels with a nil each, and in^parent _. 0 */
static size_t deepest(uint32_t *nodes, int left)
{
    set_node(nodes, 0, 6, 0, 1, 0, 1);
    for (uint32_t k = 1; k < 9; k++)
        set_node(nodes, k, 3, 9 + k, k + 1, 0, 0);
    for (uint32_t k = 9; k < 24; k++)
        set_node(nodes, k, 2, 10, k + 1, 0, 0);
    for (uint32_t k = 24; k < 254; k += 2) {
        set_node(nodes, k, 1, left ? k + 2 : k + 1, left ? k + 1 : k + 2, 0, 0);
        set_node(nodes, k + 1, 0, 0, 0, 0, 0);
    }
    set_node(nodes, 254, 5, 0, 1, 0, 255);
    set_node(nodes, 255, 0, 0, 0, 0, 0);
    return NODES;
}

/* in^parent y. over 254 times in^parent _. and y^parent y */
static size_t inputs(uint32_t *nodes)
{
    set_node(nodes, 0, 5, 0, 1, 1, 1);
    for (uint32_t k = 1; k < 255; k++)
        set_node(nodes, k, 5, 0, 1, 0, k + 1);
    set_node(nodes, 255, 4, 10, 1, 1, 0);
    return NODES;
}

/* !in^parent y. out^parent y */
static size_t forwarder(uint32_t *nodes)
{
    set_node(nodes, 0, 6, 0, 1, 1, 1);
    set_node(nodes, 1, 4, 1, 1, 1, 0);
    return 2;
}

static size_t table_of(int place, uint32_t *nodes)
{
    return place < 2 ? deepest(nodes, place) : place == 2 ? inputs(nodes) : forwarder(nodes);
}

/* Steps of both sides: a value enters, goes down, meets, goes up, passes and leaves, again and again. With the
 * deep tables most are refused, which a run goes on after. */
static void add_steps(Load *load, size_t rounds)
{
    static const uint32_t kinds[6][2] = {{1, 0}, {2, 0}, {5, 1}, {3, 1}, {6, 0}, {7, 0}};
    load->steps = malloc(rounds * 31 * sizeof *load->steps);
    load->labels = malloc(rounds * 8 * sizeof *load->labels);
    if (load->steps == NULL || load->labels == NULL)
        fail("no memory");
    for (size_t k = 0; k < rounds; k++) {
        uint32_t side = 1 + (uint32_t)(k % 2);
        for (size_t at = 0; at < 6; at++) {
            const uint32_t words[] = {kinds[at][0], side, kinds[at][1], 0, at == 0, 20};
            size_t count = at == 0 ? 6 : 5;
            memcpy(load->steps + load->steps_len, words, count * sizeof *words);
            load->steps_len += count;
        }
        const uint32_t labels[] = {0, side, 1, 20, 1, side, 1, 20};
        memcpy(load->labels + load->labels_len, labels, sizeof labels);
        load->labels_len += 8;
    }
}

static void add_line(Load *load, const char *letter, const uint32_t *words, size_t count)
{
    load->text_len += (size_t)sprintf(load->text + load->text_len, "%s", letter);
    for (size_t k = 0; k < count; k++)
        load->text_len += (size_t)sprintf(load->text + load->text_len, "\t%u", (unsigned)words[k]);
    load->text_len += (size_t)sprintf(load->text + load->text_len, "\n");
}

/* The tables as text, with 1,020 of the steps. */
static void add_text(Load *load, size_t nodes)
{
    static const uint32_t pool[] = {4999999, 10};
    add_line(load, "W", &load->wrapper, 1);
    for (uint32_t side = 1; side <= 2; side++)
        for (size_t k = 0; k < nodes; k++) {
            uint32_t words[6] = {side};
            memcpy(words + 1, load->tables + 5 * k, 5 * sizeof *words);
            add_line(load, "N", words, 6);
        }
    for (uint32_t side = 1; side <= 2; side++)
        for (size_t k = 0; k < 2; k++)
            add_line(load, "V", (const uint32_t[]){side, pool[k]}, 2);
    const uint32_t *step = load->steps;
    for (size_t k = 0; k < 1020 && step < load->steps + load->steps_len; k++) {
        uint32_t words[5];
        memcpy(words, step, 4 * sizeof *words);
        words[4] = 20;
        add_line(load, "S", words, 4 + step[4]);
        step += 5 + step[4];
    }
}

static Load *make_load(const char *name, int place, size_t rounds)
{
    Load *load = calloc(1, sizeof *load);
    if (load == NULL)
        fail("no memory");
    load->name = name;
    load->wrapper = 2;
    uint32_t nodes[5 * NODES];
    size_t count = table_of(place, nodes);
    for (int side = 0; side < 2; side++) {
        memcpy(load->tables + load->tables_len, nodes, 5 * count * sizeof *nodes);
        load->tables_len += 5 * count;
        load->tables[load->tables_len++] = 4999999;
        load->tables[load->tables_len++] = 10;
        load->lengths[2 * side] = (uint32_t)(5 * count);
        load->lengths[2 * side + 1] = 2;
    }
    add_steps(load, rounds);
    add_text(load, count);
    return load;
}

int main(int count, char **words)
{
    static const char *const names[] = {"deepest to the right", "deepest to the left", "inputs in inputs",
                                        "long lists"};
    size_t most = 0, limit = count == 2 ? strtoul(words[1], NULL, 10) * 1024 : 0;
    if (limit == 0)
        fail("usage: stack KB");
    for (int place = 0; place < 4; place++) {
        Load *load = make_load(names[place], place, place < 3 ? 200 : ROUNDS);
        size_t room = load->steps_len / 5 * BENCH_ANSWER_WORDS + BENCH_TEXT_BYTES;
        uint32_t *out = malloc(room * sizeof *out);
        if (out == NULL)
            fail("no memory");
        for (int function = 0; function < FUNCTIONS; function++) {
            Call call = {function, load, out, room, 0, {0}};
            size_t used = measure(&call);
            most = used > most ? used : most;
            printf("%s, %s: %zu bytes, told %zu, %zu %zu %zu\n", functions[function], load->name, used, call.result,
                   call.numbers[0], call.numbers[1], call.numbers[2]);
        }
        free(out);
        free(load->steps);
        free(load->labels);
        free(load);
    }
    printf("stack of the linked library: at most %zu bytes used, %zu allowed\n", most, limit);
    return most <= limit ? 0 : 1;
}
