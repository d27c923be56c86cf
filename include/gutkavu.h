/* A compiler of control-flow graphs into state machines: eleven operations on buffers that the caller lends.
 *
 * Every function returns the number of a refusal, or 0. On a refusal no buffer is changed, and every other field is
 * set to 0 unless its comment says otherwise. Words of a buffer past the length of its table are neither read nor
 * changed. The buffers and fields of one call must not overlap, except buffers that it only reads, and no pointer may
 * be null, that of an empty list or recording included.
 *
 * The refusals:
 *   1  text too long                        6  table not one that reading makes
 *   2  no line form, or no line feed        7  table or register buffer short
 *   3  a form not due here                  8  output short
 *   4  register not below R                 9  start is no block or no state, or a state asked about is none
 *   5  target not below B                  10  no machine table
 *  11  starter list without block 0 or the start block, or with a block not below B
 *  12  a table that holds code 20, in a run without words
 *  13  bounds whose lowest value of a register below R is above the highest
 *  17  a recording's line not of its form, or R not 1 to 16
 *  18  a recording's cycle not above that of the line before
 *
 * A run with words is given a list of input words, of any length. The start of the run is arrival 0, and arrival k
 * uses word k: every `in` (code 20) gives that word until the next arrival. In a machine each cycle begins with an
 * arrival, in a graph each step to a block of a starter list makes the next one; a halt makes none. With budget left
 * and no word for the arrival the run is dry: it ends before that block or cycle, whether or not the word would be
 * read.
 *
 * Every run answers a flag: 1 where an add or sub went over in a block that the run passed, else 0. One goes over where
 * the sum or difference of its signed operands is not in -2147483648 to 2147483647; its value is taken modulo 2^32 all
 * the same. The flag is clear when a run starts and stays set once raised, so a host that runs a machine piece by piece
 * joins the flags itself.
 *
 * shl, shr and sar shift by the whole second operand, read as unsigned, as IEEE 1800 has it: from 32 up shl and shr
 * give 0, and sar gives 32 copies of the sign bit.
 */
#ifndef GUTKAVU_H
#define GUTKAVU_H

#include <stddef.h>
#include <stdint.h>

#ifdef __cplusplus
extern "C" {
#endif

enum {
    GUTKAVU_TEXT_BYTES = 16384,    /* of a text, at most */
    GUTKAVU_GRAPH_WORDS = 2562,    /* of a graph table */
    GUTKAVU_MACHINE_WORDS = 13762, /* of a machine table */
    GUTKAVU_REGISTER_WORDS = 16,   /* of a register buffer, at least */
    GUTKAVU_NONE = 255             /* no block, or no state */
};

/* How a run with words ended. */
enum {
    GUTKAVU_SPENT = 0,  /* the budget is spent */
    GUTKAVU_HALTED = 1, /* a halt came, also on the last unit of the budget */
    GUTKAVU_DRY = 2     /* with budget left there was no word for an arrival */
};

/* Where things stand in a machine table, in words. Word 0 is the number of states, word 1 that of registers.
 *
 * The wires of a state work out all its blocks, also those that the run does not pass. So word c of an add or sub wire
 * (codes 3 and 4) is the reference of its block's arrival, checked as a and b are (refusal 10), and the wire counts for
 * the flag where that value is nonzero.
 *
 * The touch word of a state tells which registers it may change: bit r is set where r is below R and the next reference
 * of register r is anything but r itself, and no other bit is. One that is wrong in a state below N is refused (10).
 * Synthesis makes a state with an ite touch every register, by the wires that choose between its ways; any other state
 * touches those that its blocks write.
 *
 * The state of a block is below N, or GUTKAVU_NONE where the block is absent. The arrival of a present block is the
 * reference of a wire of its state, from 16 to 15 plus the state's wire count; that of an absent one is 0. Anything
 * else is refused (10), in any of the 64 blocks. A cycle runs those blocks of its state whose arrival is nonzero.
 * Several blocks may have the same reference, and each of them counts.
 *
 * A table of the layout before has 13698 words and no arrivals. It is refused as short (7), and in a longer buffer the
 * words behind it are taken for arrivals. It does not say what they are, so a host synthesises the graph again. One
 * that has no graph sets all block states to GUTKAVU_NONE and all arrivals to 0: the table is then admitted and runs as
 * it did, but its blocks count as 0. Before that, a table had 13634 words and no touch words; to convert it, a host
 * also moves records and wires and writes the touch words. Where it is from before there was a flag its words c are 0,
 * the reference of register 0: once converted it is admitted and runs as it did, but its flag means nothing. */
enum {
    GUTKAVU_STARTERS = 2,      /* the starter of each state */
    GUTKAVU_BLOCK_STATES = 66, /* the state of each block, GUTKAVU_NONE for an absent one */
    GUTKAVU_RECORDS = 130,     /* of each state: first wire, wire count, references of the next state and registers,
                                  touch word */
    GUTKAVU_RECORD_WORDS = 20,
    GUTKAVU_TOUCH = 19,   /* the touch word of a record */
    GUTKAVU_WIRES = 1410, /* the wires of all states: code, a, b, c */
    GUTKAVU_WIRE_WORDS = 4,
    GUTKAVU_ARRIVALS = 13698 /* the reference of each block's arrival, 0 for an absent block */
};

/* Reads a graph's text into a graph table. Refusals 1, 7, then 2 to 5 of the first faulty line, whose number is set in
 * line, counted from 1. */
uint32_t gutkavu_read(const uint8_t *text, size_t text_len, uint32_t *table, size_t table_len, uint32_t *line);

/* Writes a graph table as text, and sets the text's length. Refusals 7, 6, 8; with 8 the length needed is set.
 * Bytes of the output past the text stay. */
uint32_t gutkavu_write(const uint32_t *table, size_t table_len, uint8_t *out, size_t out_len, uint32_t *length);

/* Synthesises a graph table into a machine table. Refusals 7, 6. */
uint32_t gutkavu_synthesise(const uint32_t *graph, size_t graph_len, uint32_t *machine, size_t machine_len);

/* Runs a graph from a start block on, at most budget blocks. Refusals 7, 6, 12, 9. Sets halted to 1 or 0, the count of
 * blocks run, the halting one included, the next block, GUTKAVU_NONE where it halted, and the flag. Registers from R up
 * keep their words. */
uint32_t gutkavu_run_graph(const uint32_t *graph, size_t graph_len, uint32_t *registers, size_t registers_len,
                           uint32_t start, uint32_t budget, uint32_t *halted, uint32_t *count, uint32_t *next,
                           uint32_t *flag);

/* Runs a machine from a start state on, at most budget cycles. Refusals 7, 10, 12, 9. Sets halted to 1 or 0, the count
 * of cycles run, the halting one included, the next state, GUTKAVU_NONE where it halted, the flag, and the number of
 * blocks run in all those cycles. On a table as synthesised these are exactly the blocks that the graph runs from the
 * starter of the start state over the same arrivals. Registers from R up keep their words. */
uint32_t gutkavu_run_machine(const uint32_t *machine, size_t machine_len, uint32_t *registers, size_t registers_len,
                             uint32_t start, uint32_t budget, uint32_t *halted, uint32_t *count, uint32_t *next,
                             uint32_t *flag, uint64_t *blocks);

/* Runs a graph with words from a start block on, at most budget blocks. Refusals 7, 6, 9, 11. The starter list is a
 * set: order and repeats do not matter. Sets the outcome, the count of blocks run, the halting one included, the next
 * block, GUTKAVU_NONE where it halted, and the flag. Registers from R up keep their words. With the starters of the
 * graph's machine, and from one of them, graph and machine use the same words. */
uint32_t gutkavu_run_graph_with_words(const uint32_t *graph, size_t graph_len, uint32_t *registers,
                                      size_t registers_len, uint32_t start, uint32_t budget, const uint32_t *words,
                                      size_t words_len, const uint32_t *starters, size_t starters_len,
                                      uint32_t *outcome, uint32_t *count, uint32_t *next, uint32_t *flag);

/* Runs a machine with words from a start state on, at most budget cycles. Refusals 7, 10, 9. Sets the outcome, the
 * count of cycles run, the halting one included, the next state, GUTKAVU_NONE where it halted, the flag, and the blocks
 * run, as above. Registers from R up keep their words. */
uint32_t gutkavu_run_machine_with_words(const uint32_t *machine, size_t machine_len, uint32_t *registers,
                                        size_t registers_len, uint32_t start, uint32_t budget, const uint32_t *words,
                                        size_t words_len, uint32_t *outcome, uint32_t *count, uint32_t *next,
                                        uint32_t *flag, uint64_t *blocks);

/* Asks whether a state of a machine may change a register. Refusals 7, 10, 9. Sets touched to 1 where bit reg of the
 * state's touch word is set, else to 0. Any reg may be asked about; one not below R is never touched. */
uint32_t gutkavu_touches(const uint32_t *machine, size_t machine_len, uint32_t state, uint32_t reg, uint32_t *touched);

/* Asks for the lowest-numbered state of a machine that may change a register. Refusals 7, 10. Sets state, to
 * GUTKAVU_NONE where there is none. Any reg may be asked about; one not below R is never touched. */
uint32_t gutkavu_first_touching(const uint32_t *machine, size_t machine_len, uint32_t reg, uint32_t *state);

/* Asks what one cycle of a state can do to registers that are known within bounds. Refusals 7, 10, 9, 13. Word r of
 * lowest and of highest is a signed value in two's complement: register r lies between them, both included. For each
 * register below R they are set to a lowest and a highest value at the end of the cycle; words from R up stay. The two
 * buffers must not overlap. Every cycle of the state from registers within the bounds given, on any input word, ends
 * within those answered, which may be wider than what the cycles reach.
 *
 * The bounds are worked out wire by wire, each wire having a range:
 *   - where all inputs of a wire are single values, the exact value; word c of add and sub is no input;
 *   - set and copy: the literal, the range of a;
 *   - code 19: the range of b where a is never zero, that of c where a is zero, else the smallest that holds both;
 *   - add and sub: from the ends, full where a result could wrap;
 *   - sx: the range of a where it lies in -32768 to 32767, else -32768 to 32767;
 *   - eq, ne, lt and ge: the value where the ends of a and b decide it, else 0 to 1;
 *   - ltu and geu: 0 to 1;
 *   - any other, and `in` always: full, that is -2147483648 to 2147483647. */
uint32_t gutkavu_bounds(const uint32_t *machine, size_t machine_len, uint32_t *lowest, size_t lowest_len,
                        uint32_t *highest, size_t highest_len, uint32_t state);

/* Compares two recordings of one run, the first an array's capture, say, and the second a model's run; either may
 * lack cycles, and both may have any length, 0 included. A line is `cycle,state,` and as many register words as
 * registers (R) says, parted by commas, each number 0 to 4294967295 without leading zeros, with a line feed behind the
 * line. The cycles of a recording rise from line to line.
 * Sets shared to the number of cycles that both hold. Where state or registers differ in one of them, sets differs to 1
 * and cycle to the first such, else both to 0. Sets recording and line to 0.
 * Refusals 17, 18. 17 where R is not 1 to 16, with recording and line 0. Else that of the first faulty line, the first
 * recording's lines before the second's, with recording 1 or 2 and line counted from 1; a line that is not of the form
 * is 17, whatever its cycle. */
uint32_t gutkavu_compare_captures(uint32_t registers, const uint8_t *first, size_t first_len, const uint8_t *second,
                                  size_t second_len, uint32_t *recording, uint64_t *line, uint64_t *shared,
                                  uint32_t *differs, uint32_t *cycle);

#ifdef __cplusplus
}
#endif

#endif
