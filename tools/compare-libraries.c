/* Times this library against an earlier one, both in one process: compare-libraries TEXT.. tools/compare-libraries
 * builds and runs it. Each library has tables of its own, since the machine table's layout may differ. The functions
 * called here must have the same form in both, but that the earlier runs of a machine need not answer blocks, as they
 * do since R-7. earlier.h is the earlier header with `earlier_` before its names. */
#include "earlier.h"
#include "gutkavu.h"

#include <alloca.h>
#include <stdio.h>
#include <stdlib.h>
#include <string.h>
#include <time.h>

/* The forms of a machine's runs: today's, and that of before R-7. */
typedef __typeof__(gutkavu_run_machine) machine_run;
typedef uint32_t machine_run_before(const uint32_t *, size_t, uint32_t *, size_t, uint32_t, uint32_t, uint32_t *,
                                    uint32_t *, uint32_t *, uint32_t *);
typedef __typeof__(gutkavu_run_machine_with_words) words_run;
typedef uint32_t words_run_before(const uint32_t *, size_t, uint32_t *, size_t, uint32_t, uint32_t, const uint32_t *,
                                  size_t, uint32_t *, uint32_t *, uint32_t *, uint32_t *);

#define HAS_FORM(function, form) __builtin_types_compatible_p(__typeof__(function), form)
#define SAME_FORM_OR(function, before)                                                                                 \
    _Static_assert(HAS_FORM(earlier_##function, __typeof__(function)) || HAS_FORM(earlier_##function, before),         \
                   #function " has another form in the earlier library")
#define SAME_FORM(function) SAME_FORM_OR(function, __typeof__(function))
SAME_FORM(gutkavu_read);
SAME_FORM(gutkavu_write);
SAME_FORM(gutkavu_synthesise);
SAME_FORM(gutkavu_run_graph);
SAME_FORM_OR(gutkavu_run_machine, machine_run_before);
SAME_FORM(gutkavu_run_graph_with_words);
SAME_FORM_OR(gutkavu_run_machine_with_words, words_run_before);
SAME_FORM(gutkavu_touches);
SAME_FORM(gutkavu_first_touching);
SAME_FORM(gutkavu_bounds);

#define SAME_NUMBER(name) _Static_assert((int)name == (int)EARLIER_##name, #name " is another in the earlier library")
SAME_NUMBER(GUTKAVU_TEXT_BYTES);
SAME_NUMBER(GUTKAVU_GRAPH_WORDS);
SAME_NUMBER(GUTKAVU_REGISTER_WORDS);
SAME_NUMBER(GUTKAVU_STARTERS);

enum {
    MOST_WORDS = (int)GUTKAVU_MACHINE_WORDS > (int)EARLIER_GUTKAVU_MACHINE_WORDS ? (int)GUTKAVU_MACHINE_WORDS
                                                                                 : (int)EARLIER_GUTKAVU_MACHINE_WORDS,
    PAGE = 4096,
    PLACES = 32,
    ROUNDS = 9,
    WORDS = 20000,
    SAMPLE = 400000 /* ns */
};

struct library {
    __typeof__(gutkavu_read) *read;
    __typeof__(gutkavu_write) *write;
    __typeof__(gutkavu_synthesise) *synthesise;
    __typeof__(gutkavu_run_graph) *run_graph;
    __typeof__(gutkavu_run_graph_with_words) *run_graph_with_words;
    /* Of each run of a machine, the form that the library has; the other is null. */
    machine_run *run_machine;
    machine_run_before *run_machine_before;
    words_run *run_machine_with_words;
    words_run_before *run_machine_with_words_before;
    __typeof__(gutkavu_touches) *touches;
    __typeof__(gutkavu_first_touching) *first_touching;
    __typeof__(gutkavu_bounds) *bounds;
    size_t machine_words;
    /* Within their pages the tables of both libraries stand at the same places. */
    _Alignas(PAGE) uint32_t graph[GUTKAVU_GRAPH_WORDS];
    uint32_t machine[MOST_WORDS];
    uint32_t made[MOST_WORDS]; /* what read, write and synthesise make */
};

#define IN_FORM(form, function) __builtin_choose_expr(HAS_FORM(function, form), function, (form *)NULL)
#define LIBRARY(before, BEFORE)                                                                                        \
    {.read = before##gutkavu_read,                                                                                     \
     .write = before##gutkavu_write,                                                                                   \
     .synthesise = before##gutkavu_synthesise,                                                                         \
     .run_graph = before##gutkavu_run_graph,                                                                           \
     .run_graph_with_words = before##gutkavu_run_graph_with_words,                                                     \
     .run_machine = IN_FORM(machine_run, before##gutkavu_run_machine),                                                 \
     .run_machine_before = IN_FORM(machine_run_before, before##gutkavu_run_machine),                                   \
     .run_machine_with_words = IN_FORM(words_run, before##gutkavu_run_machine_with_words),                             \
     .run_machine_with_words_before = IN_FORM(words_run_before, before##gutkavu_run_machine_with_words),               \
     .touches = before##gutkavu_touches,                                                                               \
     .first_touching = before##gutkavu_first_touching,                                                                 \
     .bounds = before##gutkavu_bounds,                                                                                 \
     .machine_words = BEFORE##GUTKAVU_MACHINE_WORDS}
static struct library now = LIBRARY(, ), earlier = LIBRARY(earlier_, EARLIER_);

enum operation {
    READ,
    WRITE,
    SYNTHESISE,
    GRAPH,
    MACHINE,
    GRAPH_WITH_WORDS,
    MACHINE_WITH_WORDS,
    TOUCHES,
    FIRST_TOUCHING,
    BOUNDS
};

struct row {
    const char *name;
    enum operation operation;
    uint32_t budget; /* of bounds: every register is between its negative and it */
};

static const struct row rows[] = {
    {"read", READ, 0},
    {"write", WRITE, 0},
    {"synthesise", SYNTHESISE, 0},
    {"run graph, 10000", GRAPH, 10000},
    {"run graph, 1", GRAPH, 1},
    {"run graph with words, 10000", GRAPH_WITH_WORDS, 10000},
    {"run graph with words, 1", GRAPH_WITH_WORDS, 1},
    {"run machine, 1000", MACHINE, 1000},
    {"run machine, 1", MACHINE, 1},
    {"run machine with words, 1000", MACHINE_WITH_WORDS, 1000},
    {"run machine with words, 1", MACHINE_WITH_WORDS, 1},
    {"touches", TOUCHES, 0},
    {"first touching", FIRST_TOUCHING, 0},
    {"bounds, single", BOUNDS, 0},
    {"bounds, -720 to 720", BOUNDS, 720},
};

static uint8_t text[GUTKAVU_TEXT_BYTES + 1];
static size_t text_length;
static uint32_t file[GUTKAVU_REGISTER_WORDS], words[WORDS];
static volatile uint32_t kept; /* what calls leave, so that the compiler drops none */

/* Of the last state. */
static uint32_t call_bounds(struct library *of, uint32_t most)
{
    uint32_t lowest[GUTKAVU_REGISTER_WORDS], highest[GUTKAVU_REGISTER_WORDS];
    for (int i = 0; i < GUTKAVU_REGISTER_WORDS; i++) {
        lowest[i] = -most;
        highest[i] = most;
    }
    uint32_t number = of->bounds(of->machine, of->machine_words, lowest, GUTKAVU_REGISTER_WORDS, highest,
                                 GUTKAVU_REGISTER_WORDS, of->machine[0] - 1);
    kept += lowest[0] + highest[0];
    return number;
}

static uint32_t call(struct library *of, const struct row *row)
{
    uint32_t r[GUTKAVU_REGISTER_WORDS], outcome = 0, count = 0, next = 0, flag = 0, number = 0;
    uint64_t blocks = 0;
    const size_t g = GUTKAVU_GRAPH_WORDS, m = of->machine_words, f = GUTKAVU_REGISTER_WORDS;
    const uint32_t budget = row->budget, *starters = of->machine + GUTKAVU_STARTERS;
    memcpy(r, file, sizeof r);
    switch (row->operation) {
    case READ:
        number = of->read(text, text_length, of->made, g, &count);
        break;
    case WRITE:
        number = of->write(of->graph, g, (uint8_t *)of->made, GUTKAVU_TEXT_BYTES, &count);
        break;
    case SYNTHESISE:
        number = of->synthesise(of->graph, g, of->made, m);
        break;
    case GRAPH:
        number = of->run_graph(of->graph, g, r, f, 0, budget, &outcome, &count, &next, &flag);
        break;
    case MACHINE:
        if (of->run_machine)
            number = of->run_machine(of->machine, m, r, f, 0, budget, &outcome, &count, &next, &flag, &blocks);
        else
            number = of->run_machine_before(of->machine, m, r, f, 0, budget, &outcome, &count, &next, &flag);
        break;
    case GRAPH_WITH_WORDS:
        number = of->run_graph_with_words(of->graph, g, r, f, 0, budget, words, WORDS, starters, of->machine[0],
                                          &outcome, &count, &next, &flag);
        break;
    case MACHINE_WITH_WORDS:
        if (of->run_machine_with_words)
            number = of->run_machine_with_words(of->machine, m, r, f, 0, budget, words, WORDS, &outcome, &count, &next,
                                                &flag, &blocks);
        else
            number = of->run_machine_with_words_before(of->machine, m, r, f, 0, budget, words, WORDS, &outcome, &count,
                                                       &next, &flag);
        break;
    case TOUCHES:
        number = of->touches(of->machine, m, of->machine[0] - 1, 0, &count);
        break;
    case FIRST_TOUCHING:
        number = of->first_touching(of->machine, m, of->machine[1] - 1, &count);
        break;
    case BOUNDS:
        return call_bounds(of, budget);
    }
    kept += r[0] + outcome + count + next + flag + (uint32_t)blocks;
    return number;
}

/* The mean time of a call, in ns. */
static double sample(struct library *of, const struct row *row, int calls)
{
    struct timespec from, to;
    clock_gettime(CLOCK_MONOTONIC, &from);
    for (int i = 0; i < calls; i++)
        call(of, row);
    clock_gettime(CLOCK_MONOTONIC, &to);
    return ((double)(to.tv_sec - from.tv_sec) * 1e9 + (double)(to.tv_nsec - from.tv_nsec)) / calls;
}

/* Both in turns, with the stack moved by 128 bytes a place; adds the lowest of the rounds of each. */
static void __attribute__((noinline)) at_place(int place, const struct row *row, int calls, double *x, double *y)
{
    volatile char *room = alloca(128 * (size_t)place + 16);
    double least_earlier = 1e18, least_now = 1e18;
    room[0] = 1;
    for (int i = 0; i < ROUNDS; i++) {
        double t = sample(&earlier, row, calls);
        least_earlier = t < least_earlier ? t : least_earlier;
        t = sample(&now, row, calls);
        least_now = t < least_now ? t : least_now;
    }
    *x += least_earlier;
    *y += least_now;
}

static void print_row(const struct row *row)
{
    double of_earlier = 0, of_now = 0;
    uint32_t number = call(&now, row), number_earlier = call(&earlier, row);
    if (number || number_earlier) {
        printf("  %s: refused %u, earlier %u\n", row->name, number, number_earlier);
        return;
    }
    double once = sample(&now, row, 3);
    for (int place = 0; place < PLACES; place++)
        at_place(place, row, once < SAMPLE ? (int)(SAMPLE / once) : 1, &of_earlier, &of_now);
    printf("  %s: %.1f %.1f\n", row->name, of_now / PLACES, of_earlier / PLACES);
    fflush(stdout);
}

/* The tables of the text, each made by the library that it is for. */
static uint32_t prepare(struct library *of)
{
    uint32_t line, number = of->read(text, text_length, of->graph, GUTKAVU_GRAPH_WORDS, &line);
    return number ? number : of->synthesise(of->graph, GUTKAVU_GRAPH_WORDS, of->machine, of->machine_words);
}

static int print_text(const char *name)
{
    FILE *in = fopen(name, "rb");
    if (in == NULL) {
        fprintf(stderr, "%s: the file is not there\n", name);
        return 1;
    }
    text_length = fread(text, 1, sizeof text, in);
    fclose(in);
    if (prepare(&now) || prepare(&earlier)) {
        fprintf(stderr, "%s: not the text of a graph\n", name);
        return 1;
    }
    const char *slash = strrchr(name, '/');
    printf("%s\n", slash ? slash + 1 : name);
    for (size_t i = 0; i < sizeof rows / sizeof rows[0]; i++)
        print_row(&rows[i]);
    return 0;
}

int main(int count, char **names)
{
    srand(7);
    for (int i = 0; i < GUTKAVU_REGISTER_WORDS; i++)
        file[i] = ((uint32_t)rand() << 16) ^ (uint32_t)rand();
    for (int i = 0; i < WORDS; i++)
        words[i] = ((uint32_t)rand() << 16) ^ (uint32_t)rand();
    for (int i = 1; i < count; i++)
        if (print_text(names[i]))
            return 1;
    return 0;
}
