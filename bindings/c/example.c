/* How a C program reads a graph, synthesises its machine, runs both, without words and with them, counts the blocks of
 * each cycle, asks what a cycle can do to registers known within bounds and which states touch a register, compares a
 * recording of the machine with one of the array, and learns that a sum went over: example SWING TURN ARRAY WRAP, the
 * paths of examples/swing.txt, examples/turn.txt, examples/turn-array.capture and examples/wrap.txt. */
#include "gutkavu.h"

#include <inttypes.h>
#include <stdbool.h>
#include <stdio.h>
#include <stdlib.h>
#include <string.h>

enum {
    BUDGET = 1000,
    TEXT_ROOM = GUTKAVU_TEXT_BYTES + 3 /* a byte too many, so that reading refuses it; one more; the zero byte */
};

static uint32_t graph[GUTKAVU_GRAPH_WORDS];
static uint32_t machine[GUTKAVU_MACHINE_WORDS];

/* The limits of the rate of turn in registers 3 and 4, and the words of the gyro, the first taken at rest. */
static const uint32_t limits[GUTKAVU_REGISTER_WORDS] = {[3] = (uint32_t)-300, [4] = 300};
static const uint32_t words[] = {10, 65346, 410, 10, 65146, 160};
static const size_t word_count = sizeof words / sizeof words[0];

static void fail(const char *what)
{
    fprintf(stderr, "%s\n", what);
    exit(EXIT_FAILURE);
}

/* The operations below are not refused here. */
static void made(uint32_t number)
{
    if (number != 0) {
        fprintf(stderr, "refused %" PRIu32 "\n", number);
        exit(EXIT_FAILURE);
    }
}

/* The bytes of a file, with a zero byte after them. */
static size_t load(const char *path, char *text)
{
    FILE *file = fopen(path, "rb");
    if (file == NULL)
        fail("the file is not there");
    size_t length = fread(text, 1, GUTKAVU_TEXT_BYTES + 1, file);
    fclose(file);
    text[length] = 0;
    return length;
}

/* The graph and the machine of a text. */
static void compile(const char *text, size_t length)
{
    uint32_t line;
    made(gutkavu_read((const uint8_t *)text, length, graph, GUTKAVU_GRAPH_WORDS, &line));
    made(gutkavu_synthesise(graph, GUTKAVU_GRAPH_WORDS, machine, GUTKAVU_MACHINE_WORDS));
}

static uint32_t wires_of(uint32_t state)
{
    return machine[GUTKAVU_RECORDS + GUTKAVU_RECORD_WORDS * state + 1];
}

static void print_machine(void)
{
    uint32_t states = machine[0], blocks = graph[0], wires = 0;
    for (uint32_t state = 0; state < states; state++)
        wires += wires_of(state);
    printf("blocks %" PRIu32 ", registers %" PRIu32 "\n", blocks, graph[1]);
    printf("states %" PRIu32 ", wires %" PRIu32 "\n", states, wires);
    for (uint32_t state = 0; state < states; state++) {
        uint32_t starter = machine[GUTKAVU_STARTERS + state];
        printf("state %" PRIu32 ": starter %" PRIu32 ", wires %" PRIu32 ", blocks", state, starter, wires_of(state));
        for (uint32_t block = 0; block < blocks; block++)
            if (machine[GUTKAVU_BLOCK_STATES + block] == state)
                printf(" %" PRIu32, block);
        printf("\n");
    }
}

/* What the runs of a graph and of its machine answer, which both halted. */
struct halts {
    uint32_t blocks, cycles, flag;
};

/* Runs graph and machine until they halt; they run the same number of blocks, leave the same registers and answer the
 * same flag. */
static struct halts run_both(uint32_t registers[GUTKAVU_REGISTER_WORDS])
{
    uint32_t others[GUTKAVU_REGISTER_WORDS];
    uint32_t halted, halted_too, next, flag_too;
    uint64_t blocks_too;
    struct halts both;
    memcpy(others, registers, sizeof others);
    made(gutkavu_run_graph(graph, GUTKAVU_GRAPH_WORDS, registers, GUTKAVU_REGISTER_WORDS, 0, BUDGET, &halted,
                           &both.blocks, &next, &both.flag));
    made(gutkavu_run_machine(machine, GUTKAVU_MACHINE_WORDS, others, GUTKAVU_REGISTER_WORDS, 0, BUDGET, &halted_too,
                             &both.cycles, &next, &flag_too, &blocks_too));
    bool same = both.blocks == blocks_too && both.flag == flag_too && memcmp(registers, others, sizeof others) == 0;
    if (!halted || !halted_too || !same)
        fail("graph and machine do not agree");
    return both;
}

/* Runs graph and machine with a rate in register 0. */
static void print_swing(int32_t rate)
{
    uint32_t registers[GUTKAVU_REGISTER_WORDS] = {(uint32_t)rate};
    struct halts both = run_both(registers);
    const char *how = registers[5] ? "hard turn" : "slow swing";
    const char *side = registers[3] == 1 ? "port" : "starboard";
    printf("  %" PRId32 ": %s to %s, rate %" PRIu32 "; ", rate, how, side, registers[4]);
    printf("blocks %" PRIu32 ", cycles %" PRIu32 "\n", both.blocks, both.cycles);
}

/* What a cycle of state 0 can do with a rate between two values in register 0, the other registers being 0. */
static void print_bounds(int32_t from, int32_t to)
{
    uint32_t lowest[GUTKAVU_REGISTER_WORDS] = {(uint32_t)from};
    uint32_t highest[GUTKAVU_REGISTER_WORDS] = {(uint32_t)to};
    uint32_t number = gutkavu_bounds(machine, GUTKAVU_MACHINE_WORDS, lowest, GUTKAVU_REGISTER_WORDS, highest,
                                     GUTKAVU_REGISTER_WORDS, 0);
    printf("  %" PRId32 " to %" PRId32 ":", from, to);
    if (number != 0) {
        printf(" refused %" PRIu32 "\n", number);
        return;
    }
    for (uint32_t reg = 0; reg < machine[1]; reg++) {
        const char *comma = reg == 0 ? "" : ",";
        printf("%s r%" PRIu32 " %" PRId32 " to %" PRId32, comma, reg, (int32_t)lowest[reg], (int32_t)highest[reg]);
    }
    printf("\n");
}

/* Runs graph and machine with a rate that begins at 0 and is summed up in steps, as long as it is below a limit. */
static void print_wrap(uint32_t limit)
{
    uint32_t registers[GUTKAVU_REGISTER_WORDS] = {[1] = 300000000, [2] = limit, [3] = 8};
    uint32_t step = registers[1], steps = registers[3];
    struct halts both = run_both(registers);
    printf("  %" PRIu32 " steps of %" PRIu32 ", limit %" PRIu32 ": ", steps, step, limit);
    printf("rate %" PRId32 ", flag %" PRIu32 "; ", (int32_t)registers[0], both.flag);
    printf("blocks %" PRIu32 ", cycles %" PRIu32 "\n", both.blocks, both.cycles);
}

/* Runs graph and machine with a word of the gyro for each cycle. Both are dry when the words end, having run the same
 * number of blocks, leave the same registers and answer the same flag. */
static void print_turn(void)
{
    uint32_t registers[GUTKAVU_REGISTER_WORDS], others[GUTKAVU_REGISTER_WORDS];
    uint32_t outcome, outcome_too, blocks, cycles, next, flag, flag_too;
    uint64_t blocks_too;
    memcpy(registers, limits, sizeof registers);
    memcpy(others, limits, sizeof others);
    uint32_t number = gutkavu_run_machine(machine, GUTKAVU_MACHINE_WORDS, others, GUTKAVU_REGISTER_WORDS, 0, BUDGET,
                                          &outcome, &cycles, &next, &flag, &blocks_too);
    printf("  without words: refused %" PRIu32 "\n", number);
    made(gutkavu_run_graph_with_words(graph, GUTKAVU_GRAPH_WORDS, registers, GUTKAVU_REGISTER_WORDS, 0, BUDGET, words,
                                      word_count, machine + GUTKAVU_STARTERS, machine[0], &outcome, &blocks, &next,
                                      &flag));
    made(gutkavu_run_machine_with_words(machine, GUTKAVU_MACHINE_WORDS, others, GUTKAVU_REGISTER_WORDS, 0, BUDGET,
                                        words, word_count, &outcome_too, &cycles, &next, &flag_too, &blocks_too));
    bool dry = outcome == GUTKAVU_DRY && outcome_too == GUTKAVU_DRY;
    bool same = blocks == blocks_too && flag == flag_too && memcmp(registers, others, sizeof registers) == 0;
    if (!dry || !same)
        fail("graph and machine do not agree");
    printf("  %zu words: lowest %" PRId32 ", ", word_count, (int32_t)registers[1]);
    printf("highest %" PRId32 ", outside %" PRIu32 "; ", (int32_t)registers[2], registers[5]);
    printf("dry after blocks %" PRIu32 ", cycles %" PRIu32 "\n", blocks, cycles);
}

/* Runs the machine with words, a cycle a call; it does not halt. */
static void print_blocks(void)
{
    uint32_t registers[GUTKAVU_REGISTER_WORDS], state = 0, outcome, count, flag;
    uint64_t blocks;
    memcpy(registers, limits, sizeof registers);
    printf("  blocks in each cycle:");
    for (size_t cycle = 0; cycle < word_count; cycle++) {
        made(gutkavu_run_machine_with_words(machine, GUTKAVU_MACHINE_WORDS, registers, GUTKAVU_REGISTER_WORDS, state, 1,
                                            words + cycle, 1, &outcome, &count, &state, &flag, &blocks));
        printf(" %" PRIu64, blocks);
    }
    printf("\n");
}

/* The registers that each state touches, and the first state that touches each register; there is none for the register
 * past the last. */
static void print_touched(void)
{
    uint32_t touched, first;
    for (uint32_t state = 0; state < machine[0]; state++) {
        printf("  state %" PRIu32 ": registers", state);
        for (uint32_t reg = 0; reg < machine[1]; reg++) {
            made(gutkavu_touches(machine, GUTKAVU_MACHINE_WORDS, state, reg, &touched));
            if (touched)
                printf(" %" PRIu32, reg);
        }
        printf("\n");
    }
    printf("  first states:");
    for (uint32_t reg = 0; reg <= machine[1]; reg++) {
        made(gutkavu_first_touching(machine, GUTKAVU_MACHINE_WORDS, reg, &first));
        if (first == GUTKAVU_NONE)
            printf(" none");
        else
            printf(" %" PRIu32, first);
    }
    printf("\n");
}

/* The text with the first `old` in it made `new`. */
static size_t replace(const char *text, const char *old, const char *new, char *out)
{
    const char *place = strstr(text, old);
    if (place == NULL)
        fail("the text lacks what is to be replaced");
    return (size_t)snprintf(out, TEXT_ROOM, "%.*s%s%s", (int)(place - text), text, new, place + strlen(old));
}

/* Runs the machine with words, a cycle a call, and writes down the state and registers that each cycle begins with. */
static void record(char *out)
{
    uint32_t registers[GUTKAVU_REGISTER_WORDS], state = 0, outcome = GUTKAVU_SPENT, count, flag;
    uint64_t blocks;
    memcpy(registers, limits, sizeof registers);
    for (size_t cycle = 0; outcome == GUTKAVU_SPENT; cycle++) {
        out += sprintf(out, "%zu,%" PRIu32, cycle, state);
        for (uint32_t i = 0; i < machine[1]; i++)
            out += sprintf(out, ",%" PRIu32, registers[i]);
        out += sprintf(out, "\n");
        made(gutkavu_run_machine_with_words(machine, GUTKAVU_MACHINE_WORDS, registers, GUTKAVU_REGISTER_WORDS, state, 1,
                                            words + cycle, word_count - cycle, &outcome, &count, &state, &flag,
                                            &blocks));
    }
}

static void print_comparison(const char *what, const char *array, const char *model)
{
    uint32_t recording, differs, cycle;
    uint64_t line, shared;
    uint32_t number = gutkavu_compare_captures(machine[1], (const uint8_t *)array, strlen(array),
                                               (const uint8_t *)model, strlen(model), &recording, &line, &shared,
                                               &differs, &cycle);
    printf("  %s: ", what);
    if (number != 0)
        printf("refused %" PRIu32 " at line %" PRIu64 " of recording %" PRIu32 "\n", number, line, recording);
    else if (differs)
        printf("cycles in both %" PRIu64 ", first that differs %" PRIu32 "\n", shared, cycle);
    else
        printf("cycles in both %" PRIu64 ", none differs\n", shared);
}

/* Compares the array's recording with that of the machine: as it is, with the wrong register set right, and with a line
 * that is not of its form. */
static void print_captures(const char *array)
{
    static char model[TEXT_ROOM], other[TEXT_ROOM];
    record(model);
    print_comparison("as captured", array, model);
    replace(array, ",401,", ",400,", other);
    print_comparison("with 400 for 401", other, model);
    replace(array, "\n4,", "\n04,", other);
    print_comparison("with a leading zero", other, model);
}

/* All questions about the swing graph, whose text this is. */
static void print_swings(const char *text, size_t length)
{
    static char other[TEXT_ROOM];
    compile(text, length);
    print_machine();
    printf("signed comparison (lt)\n");
    print_swing(-200);
    print_swing(200);
    printf("a rate within bounds\n");
    print_bounds(-720, 720);
    print_bounds(1, 720);
    print_bounds(720, -720);
    /* The same text with its first signed comparison made unsigned. */
    compile(other, replace(text, "ite,lt,", "ite,ltu,", other));
    printf("unsigned comparison (ltu)\n");
    print_swing(-200);
    print_swing(200);
    uint32_t line;
    uint32_t number = gutkavu_read((const uint8_t *)text, length - 1, graph, GUTKAVU_GRAPH_WORDS, &line);
    printf("without the last line feed\n  refused %" PRIu32 " at line %" PRIu32 "\n", number, line);
}

int main(int count, char **arguments)
{
    static char text[TEXT_ROOM];
    if (count != 5)
        fail("usage: example SWING TURN ARRAY WRAP");
    print_swings(text, load(arguments[1], text));
    compile(text, load(arguments[2], text));
    printf("rate of turn\n");
    print_turn();
    print_blocks();
    printf("touched registers\n");
    print_touched();
    load(arguments[3], text);
    printf("array against model\n");
    print_captures(text);
    compile(text, load(arguments[4], text));
    /* Up to the last step both limits give the same rate. Then, below the higher one, the sum goes over; the lower one
     * is reached, and the step is left out. */
    printf("a rate summed up\n");
    print_wrap(INT32_MAX);
    print_wrap(2000000000);
    return EXIT_SUCCESS;
}
