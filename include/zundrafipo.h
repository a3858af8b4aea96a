/* Zundrafipo: silent-hop reduction of mode graphs (tau-confluence), with an audit of the result
 * (branching bisimulation). The proved library's entries for C and C++, for x86-64 Linux (System V
 * calling convention). docs/REFERENCE.md says what each entry answers, and has a glossary.
 *
 * Graphs. A graph (labelled transition system) is given by its state count, its label count, its
 * initial state and one flat list of hops (transitions). A hop has four numbers: from, label, to
 * and line. Hops are strictly ascending by from, then label, then to. Label 0 is silent (tau).
 *
 * Lines. A hop's line is the line of the source that it comes from, 0 for none. It may be any
 * number. Hops are ordered, compared, found, marked and audited without it. Two hops that differ in
 * the line alone are the same hop. Before version 0.5.0 hops had three numbers and no line.
 *
 * Slices. A slice is a pointer and a length, which counts elements. A pointer is aligned for its
 * type and has that many elements behind it. Beside a length of 0 it may be null, as an empty
 * std::vector gives it. No output may overlap anything else that is lent in the same call. An
 * output may be longer than it need be.
 *
 * Answers. An entry writes its answer to `answer`: number, table and place, then the entry's own
 * figures. ZF_ANSWER_.. says how many elements that takes. What is behind them stays as it is. The
 * entry returns the number: ZF_ACCEPTED, else that of the refusal. The table is 2 where graph 2 of
 * an audit is refused with 1 to 4, else 1. With a refusal every figure is 0, and nothing else that
 * was lent is altered. With acceptance just the named elements of the outputs are written. The
 * answer of zf_hops_of alone has no number, table and place.
 *
 * Order. The possible numbers of each entry are listed in the order in which they are asked. If
 * several refusals apply, the one listed first is returned. Each number is asked of the whole list
 * before the next one.
 *
 * An answer that is too short. It is refused with ZF_ROOM, after everything else was asked. So
 * where the entry itself refuses, its own number is returned. Either way nothing at all is written,
 * not even the answer.
 *
 * Threads. The library has no data of its own and allocates nothing. An entry's state is what it is
 * lent and its stack. Any number of calls may run at a time if no output of one is lent to another.
 *
 * Check and mark exist in a form over records too. That form is for Rattle callers and is not
 * exported to C.
 */
#ifndef ZUNDRAFIPO_H
#define ZUNDRAFIPO_H

#include <stddef.h>
#include <stdint.h>

#define ZF_VERSION_MAJOR 0
#define ZF_VERSION_MINOR 5
#define ZF_VERSION_PATCH 0

/* The limits. State and label counts are at least 1. */
#define ZF_MOST_STATES 1024
#define ZF_MOST_LABELS 1024
#define ZF_MOST_HOPS 4096
#define ZF_MOST_ROUNDS 4
#define ZF_LONGEST_NAME 32
#define ZF_LONGEST_FILE 66536

/* How many numbers of a flat list a hop takes: from, label, to and line. */
#define ZF_NUMBERS_A_HOP 4

/* The numbers. A place counts from 0, that of a hop in hops. It is 0 where none is named. */

/* Accepted. */
#define ZF_ACCEPTED 0
/* A count outside its limits, or a flat list whose length is no multiple of four. */
#define ZF_COUNTS 1
/* The initial state is not below the state count. */
#define ZF_INITIAL 2
/* A hop's state or label is not below its count. Place: the first such hop. */
#define ZF_HOP 3
/* A hop is not above the one before it by from, label and to. Place: the first such hop. */
#define ZF_ORDER 4
/* The graph has a ring, a cycle of silent hops. Place: the lowest state on a ring. */
#define ZF_RING 5
/* An output is too short, or the answer is. */
#define ZF_ROOM 6
/* The label counts of the two graphs differ. */
#define ZF_LABELS 7
/* The map's length is not state count 1. Place: the map's length.
 * Else: an entry of the map is not below state count 2. Place: the first such entry. */
#define ZF_MAP 8
/* There is no silent hop at the asked place. */
#define ZF_NO_SILENT_HOP 9
/* More than ZF_MOST_ROUNDS rounds. */
#define ZF_ROUNDS 10
/* The file ends before its contents. Place: the file's length. */
#define ZF_FILE_ENDS 11
/* A bit of byte 0 is set that must not be: one of bits 4 to 7, or one for a field that holds what
 * its absence means, such as lines that are all 0. */
#define ZF_BIT_MAP 12
/* A file of more than ZF_LONGEST_FILE bytes. Place: ZF_LONGEST_FILE.
 * Or: bytes left over behind the contents. Place: the first of them. */
#define ZF_FILE_LONG 13
/* A name of length 0 or over ZF_LONGEST_NAME, or one equal to an earlier name. Place: the length
 * byte of the first such name, for reading counted from the file's start, for writing from the
 * block's.
 * For writing, before any fault in a name: a block that ends early (place: its length), or that has
 * bytes left over (place: the first of them). */
#define ZF_NAME 14
/* A sense that is none of ZF_SENSE_.. */
#define ZF_SENSE 19

/* The senses, the notions of tau-confluence of RR-7000. A set U of silent hops is confluent in a
 * sense when, for each hop s1 to s2 of U and each hop s1, a, s3, a hop labelled a answers (none
 * need answer where a is silent) and both ways meet in a state s4. The sense says what hops of U
 * may do besides. The marked hops are those of the greatest such set. R1's are among R2's and among
 * R3's, and theirs are among R8's. */

/* Strong confluence: the answering hop leaves s2 and leads to s4. s3 is s4, or a hop of U leads
 * from s3 to s4. */
#define ZF_SENSE_R1 1
/* As R1, but zero or more hops of U lead from the end of the answering hop to s4. */
#define ZF_SENSE_R2 2
/* As R1, but zero or more hops of U come before the answering hop. */
#define ZF_SENSE_R3 3
/* Weak confluence: as R2 and R3 at once, and zero or more hops of U lead from s3 to s4. */
#define ZF_SENSE_R8 8

/* The kinds of faults. The first fault of an audit has the lowest kind, then the lowest place, then
 * the lowest state. */

/* There is no fault. */
#define ZF_FAULT_NONE 0
/* The map of initial state 1 is not initial state 2. Place and state: 0. */
#define ZF_FAULT_INITIAL 1
/* A hop of graph 1 that graph 2 does not have. Place: the hop's in graph 1. State: 0. */
#define ZF_FAULT_LOST 2
/* A hop of graph 2 that a state of graph 1 does not answer. Place: the hop's in graph 2. State:
 * that state of graph 1. */
#define ZF_FAULT_MADE_UP 3

/* How many elements the answer of each entry takes. */
#define ZF_ANSWER_CHECK 3
#define ZF_ANSWER_MARK 3
#define ZF_ANSWER_MARK_FAST 4
#define ZF_ANSWER_REDUCE 7
#define ZF_ANSWER_SHRINK 8
#define ZF_ANSWER_AUDIT 7
#define ZF_ANSWER_ROUND 4
#define ZF_ANSWER_FIND 5
#define ZF_ANSWER_HOPS_OF 2
#define ZF_ANSWER_READ 9
#define ZF_ANSWER_WRITE 4

/* How many bytes of stack a call takes at most, whatever it is lent. These are measured at full
 * size and rounded up (tests/stack.sh). No proof speaks of a stack. A thread of 256 KiB is enough
 * for every entry. */
#define ZF_STACK_CHECK 4096
#define ZF_STACK_MARK 49152
#define ZF_STACK_MARK_FAST 49152
#define ZF_STACK_REDUCE 65536
#define ZF_STACK_SHRINK 131072
#define ZF_STACK_AUDIT 40960
#define ZF_STACK_ROUND 40960
#define ZF_STACK_FIND 4096
#define ZF_STACK_HOPS_OF 4096
#define ZF_STACK_READ 98304
#define ZF_STACK_WRITE 8192

#ifdef __cplusplus
extern "C" {
#endif

/* The entries. In each comment "the graph" stands for the inputs states, labels, initial and hops;
 * hops_len counts numbers, four a hop. Numbers without a name are those above: 1 is ZF_COUNTS. */

/* Checks a graph: its counts, its initial state, the range and the order of its hops.
 * Inputs:  the graph
 * Outputs: none
 * Numbers: 1, 2, 3, 4, 6 (the answer)
 * Figures: none
 * Stack:   ZF_STACK_CHECK */
uint32_t zf_check(uint32_t states, uint32_t labels, uint32_t initial, const uint16_t *hops, size_t hops_len, uint64_t *answer, size_t answer_len);

/* Marks the hops of the greatest confluent set of a sense.
 * Inputs:  the graph; the sense, ZF_SENSE_..
 * Outputs: marks, 1 or 0 for each hop: hops_len / 4 elements
 * Numbers: 1, 2, 3, 4, 19, 5, 6
 * Figures: none
 * Stack:   ZF_STACK_MARK */
uint32_t zf_mark(uint32_t states, uint32_t labels, uint32_t initial, const uint16_t *hops, size_t hops_len, uint32_t sense,
                 uint8_t *marks, size_t marks_len, uint64_t *answer, size_t answer_len);

/* Marks as zf_mark does under R1, and counts the tests of the rounds. The first round tests every
 * silent hop. Each later round tests the hops that are still marked and have a hop to try with a
 * closing that lost its mark in the round before.
 * Inputs:  the graph
 * Outputs: marks, 1 or 0 for each hop: hops_len / 4 elements
 * Numbers: 1, 2, 3, 4, 5, 6
 * Figures: the number of tests
 * Stack:   ZF_STACK_MARK_FAST */
uint32_t zf_mark_fast(uint32_t states, uint32_t labels, uint32_t initial, const uint16_t *hops, size_t hops_len, uint8_t *marks, size_t marks_len,
                      uint64_t *answer, size_t answer_len);

/* Reduces a graph in a sense: writes the short graph (the quotient) and the map to it. A short hop
 * has the smallest nonzero line of the hops that it comes from, and 0 where none of them has a
 * line. It comes from hops of its class's representative alone.
 * Inputs:  the graph; the sense, ZF_SENSE_..
 * Outputs: map, the new state of each state: states elements
 *          short_hops, four numbers for each hop of the short graph: hops_len elements are needed,
 *          though fewer may be written
 * Numbers: 1, 2, 3, 4, 19, 5, 6
 * Figures: the short graph's state count, label count, hop count and initial state
 * Stack:   ZF_STACK_REDUCE */
uint32_t zf_reduce(uint32_t states, uint32_t labels, uint32_t initial, const uint16_t *hops, size_t hops_len, uint32_t sense,
                   uint16_t *map, size_t map_len, uint16_t *short_hops, size_t short_len, uint64_t *answer, size_t answer_len);

/* Reduces in a sense again and again, until no hop is marked. What is left is the last graph. A hop
 * of it has the smallest nonzero line of the first graph's hops that it comes from through all
 * reductions, and 0 where none of them has a line. The number of reductions counts those that
 * marked something. It is below the state count, and at most 1 under R8. Where it is 0 the last
 * graph is the first one, lines too, and each state is mapped to itself.
 * Inputs:  the graph; the sense, ZF_SENSE_..
 * Outputs: map, the state of the last graph for each state: states elements
 *          short_hops, four numbers for each hop of the last graph: hops_len elements are needed,
 *          though fewer may be written
 * Numbers: 1, 2, 3, 4, 19, 5, 6
 * Figures: the last graph's state count, label count, hop count and initial state; the number of
 *          reductions
 * Stack:   ZF_STACK_SHRINK */
uint32_t zf_shrink(uint32_t states, uint32_t labels, uint32_t initial, const uint16_t *hops, size_t hops_len, uint32_t sense,
                   uint16_t *map, size_t map_len, uint16_t *short_hops, size_t short_len, uint64_t *answer, size_t answer_len);

/* Counts the faults of a map from graph 1 to graph 2, and names the first. The count is 0 exactly
 * when the map is a branching bisimulation that joins the initial states. Rings are allowed in both
 * graphs.
 * Inputs:  graph 1; graph 2; the map, one number for each state of graph 1: states1 elements
 * Outputs: none
 * Numbers: 1, 2, 3, 4 of graph 1; 1, 2, 3, 4 of graph 2 (table 2); 7, 8, 6 (the answer)
 * Figures: the fault count; the first fault's kind (ZF_FAULT_..), place and state, all 0 with no
 *          fault
 * Stack:   ZF_STACK_AUDIT */
uint32_t zf_audit(uint32_t states1, uint32_t labels1, uint32_t initial1, const uint16_t *hops1, size_t hops1_len,
                  uint32_t states2, uint32_t labels2, uint32_t initial2, const uint16_t *hops2, size_t hops2_len,
                  const uint16_t *map, size_t map_len, uint64_t *answer, size_t answer_len);

/* The round question: whether a silent hop survives so many rounds of the marking under R1. Rings
 * are allowed.
 * Inputs:  the graph; the place of a silent hop, counted in hops; the rounds, 0 to ZF_MOST_ROUNDS
 * Outputs: none
 * Numbers: 1, 2, 3, 4, 9, 10, 6 (the answer)
 * Figures: 1 where it survives, else 0
 * Stack:   ZF_STACK_ROUND */
uint32_t zf_round(uint32_t states, uint32_t labels, uint32_t initial, const uint16_t *hops, size_t hops_len, uint64_t place, uint32_t rounds,
                  uint64_t *answer, size_t answer_len);

/* Looks a hop up in a graph, by from, label and to.
 * Inputs:  the graph; from, label and to. They may be any numbers: a hop with one that is out of
 *          range is not there
 * Outputs: none
 * Numbers: 1, 2, 3, 4, 6 (the answer)
 * Figures: 1 where the graph has the hop, else 0; its place, or where it would stand: how many hops
 *          come before it, 0 to the hop count
 * Stack:   ZF_STACK_FIND */
uint32_t zf_find(uint32_t states, uint32_t labels, uint32_t initial, const uint16_t *hops, size_t hops_len, uint32_t from, uint32_t label, uint32_t to,
                 uint64_t *answer, size_t answer_len);

/* Gives the outgoing hops of a state of graph 1 or graph 2 as a part of that graph's list.
 * Inputs:  the side, 1 or 2; the state; graph 1; graph 2
 * Outputs: none
 * Numbers: 6 (the answer). There is no other refusal, and the answer has no number, table and place
 * Figures: start and length of the part, in numbers of that graph's list, four a hop. Both are 0
 *          where the state has no hops or is not there, for another side, and if either graph is
 *          refused with 1 to 4
 * Stack:   ZF_STACK_HOPS_OF */
uint32_t zf_hops_of(uint32_t side, uint32_t state, uint32_t states1, uint32_t labels1, uint32_t initial1, const uint16_t *hops1, size_t hops1_len,
                    uint32_t states2, uint32_t labels2, uint32_t initial2, const uint16_t *hops2, size_t hops2_len,
                    uint64_t *answer, size_t answer_len);

/* Reads a graph file.
 * Inputs:  file, its bytes
 * Outputs: hops, four numbers for each hop of the file. ZF_NUMBERS_A_HOP * ZF_MOST_HOPS elements
 *          are enough for every file
 * Numbers: 13 (too long), 12 (bits 4 to 7), 11, 13 (bytes left over), 12 (a field that holds what
 *          its absence means), 14, 1, 2, 3, 4, 6
 * Figures: state count, label count, initial state, hop count; place and length of the name block,
 *          0 and 0 without names. The block ends where the lines begin, or with the file where it
 *          has no lines
 * Stack:   ZF_STACK_READ */
uint32_t zf_read(const uint8_t *file, size_t file_len, uint16_t *hops, size_t hops_len, uint64_t *answer, size_t answer_len);

/* Writes a graph file from a graph and a name block. The lines are written where some hop has one.
 * Inputs:  the graph; names, the name block (empty: no names)
 * Outputs: out, the bytes of the file. ZF_LONGEST_FILE elements are enough for every graph
 * Numbers: 1, 2, 3, 4, 14 (the block ends early or has bytes left over), 14 (a name), 6
 * Figures: the length of the file
 * Stack:   ZF_STACK_WRITE */
uint32_t zf_write(uint32_t states, uint32_t labels, uint32_t initial, const uint16_t *hops, size_t hops_len, const uint8_t *names, size_t names_len,
                  uint8_t *out, size_t out_len, uint64_t *answer, size_t answer_len);

#ifdef __cplusplus
}
#endif

#endif
