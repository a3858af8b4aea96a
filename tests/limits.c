/* What include/zundrafipo.h promises to a caller, tried on the library: its limits, the name of each number, of each sense and of each kind of fault, where a hop is found,
 * what shrinking leaves, which line a short hop has, the longest file, how long each answer is and what a short one does, and null pointers beside a length of 0. The same
 * file is C and C++. */
#include <stdio.h>
#include <string.h>
#include "zundrafipo.h"

#define NUMBERS (ZF_NUMBERS_A_HOP * ZF_MOST_HOPS)
#define UNWRITTEN 77

static unsigned tried, failed;

static void expect(const char *what, uint64_t got, uint64_t wanted) {
    tried++;
    if (got != wanted) {
        failed++;
        fprintf(stderr, "limits: %s: %lu, expected %lu\n", what, (unsigned long)got, (unsigned long)wanted);
    }
}

/* P1 without lines, and a block of one name */
#define P1 4, 2, 0, p1, 16
static const uint16_t p1[16] = {0, 0, 1, 0, 0, 1, 2, 0, 1, 1, 3, 0, 2, 0, 3, 0};
static const uint16_t p1_map[4] = {0, 0, 1, 1}, p1_short[8] = {0, 1, 1, 0, 1, 1, 1, 0}; /* its short hop, and one that is made up */
static const uint8_t name[2] = {1, 'a'};

/* one more of everything than any graph may have; without it, the most */
#define FULL ZF_MOST_STATES, ZF_MOST_LABELS, ZF_MOST_STATES - 1, hops, NUMBERS
static uint16_t hops[NUMBERS + ZF_NUMBERS_A_HOP], list[NUMBERS], map[ZF_MOST_STATES];
static uint8_t marks[ZF_MOST_HOPS], file[ZF_LONGEST_FILE + 1], block[ZF_LONGEST_NAME + 2], names[(ZF_MOST_LABELS - 1) * (ZF_LONGEST_NAME + 1)];
static uint64_t answer[16];

static void limits(void) {
    const uint32_t most = ZF_MOST_STATES;
    uint16_t i;
    for (i = 0; i <= ZF_MOST_HOPS; i++) {
        hops[ZF_NUMBERS_A_HOP * i] = (uint16_t)(i / 5);
        hops[ZF_NUMBERS_A_HOP * i + 1] = (uint16_t)(i % 5);
    }
    expect("the most states, labels and hops", zf_check(FULL, answer, ZF_ANSWER_CHECK), ZF_ACCEPTED);
    expect("a state more", zf_check(most + 1, ZF_MOST_LABELS, 0, hops, NUMBERS, answer, ZF_ANSWER_CHECK), ZF_COUNTS);
    expect("a label more", zf_check(most, ZF_MOST_LABELS + 1, 0, hops, NUMBERS, answer, ZF_ANSWER_CHECK), ZF_COUNTS);
    expect("a hop more", zf_check(most, ZF_MOST_LABELS, 0, hops, NUMBERS + ZF_NUMBERS_A_HOP, answer, ZF_ANSWER_CHECK), ZF_COUNTS);
    for (i = 1; i < ZF_NUMBERS_A_HOP; i++) expect("no multiple of four", zf_check(FULL - i, answer, ZF_ANSWER_CHECK), ZF_COUNTS);
    expect("the most rounds", zf_round(P1, 0, ZF_MOST_ROUNDS, answer, ZF_ANSWER_ROUND), ZF_ACCEPTED);
    expect("a round more", zf_round(P1, 0, ZF_MOST_ROUNDS + 1, answer, ZF_ANSWER_ROUND), ZF_ROUNDS);
    block[0] = ZF_LONGEST_NAME;
    expect("the longest name", zf_write(P1, block, ZF_LONGEST_NAME + 1, file, sizeof file, answer, ZF_ANSWER_WRITE), ZF_ACCEPTED);
    block[0] = ZF_LONGEST_NAME + 1;
    expect("a longer name", zf_write(P1, block, ZF_LONGEST_NAME + 2, file, sizeof file, answer, ZF_ANSWER_WRITE), ZF_NAME);
    expect("a longer file", zf_read(file, ZF_LONGEST_FILE + 1, list, NUMBERS, answer, ZF_ANSWER_READ), ZF_FILE_LONG);
    expect("its place", answer[2], ZF_LONGEST_FILE);
}

/* the numbers that no limit gives */
static void numbers(void) {
    static const uint16_t descending[8] = {0, 1, 2, 0, 0, 0, 1, 0}, silent_ring[4] = {0, 0, 0, 0}, absent[4] = {0, 0, 4, 0};
    static const uint8_t high_bit[5] = {16, 1, 0, 1, 0};
    expect("ZF_INITIAL", zf_check(4, 2, 4, p1, 16, answer, ZF_ANSWER_CHECK), ZF_INITIAL);
    expect("ZF_HOP", zf_check(4, 2, 0, absent, 4, answer, ZF_ANSWER_CHECK), ZF_HOP);
    expect("ZF_ORDER", zf_check(4, 2, 0, descending, 8, answer, ZF_ANSWER_CHECK), ZF_ORDER);
    expect("ZF_RING", zf_mark(4, 2, 0, silent_ring, 4, ZF_SENSE_R1, marks, 1, answer, ZF_ANSWER_MARK), ZF_RING);
    expect("ZF_ROOM", zf_mark(P1, ZF_SENSE_R1, marks, 3, answer, ZF_ANSWER_MARK), ZF_ROOM);
    expect("ZF_LABELS", zf_audit(P1, 2, 3, 0, p1_short, 4, p1_map, 4, answer, ZF_ANSWER_AUDIT), ZF_LABELS);
    expect("ZF_MAP", zf_audit(P1, 2, 2, 0, p1_short, 4, p1_map, 3, answer, ZF_ANSWER_AUDIT), ZF_MAP);
    expect("ZF_NO_SILENT_HOP", zf_round(P1, 1, 0, answer, ZF_ANSWER_ROUND), ZF_NO_SILENT_HOP);
    expect("ZF_FILE_ENDS", zf_read(high_bit, 0, list, NUMBERS, answer, ZF_ANSWER_READ), ZF_FILE_ENDS);
    expect("ZF_BIT_MAP", zf_read(high_bit, 5, list, NUMBERS, answer, ZF_ANSWER_READ), ZF_BIT_MAP);
}

/* Which of four hops' marks a sense writes, as a number of bits, and how many states it leaves. */
static void sense(const char *what, uint32_t number, const uint16_t *list_of, size_t states, uint64_t wanted, uint64_t states_left) {
    uint64_t found = 0;
    size_t i;
    expect(what, zf_mark((uint32_t)states, 2, 0, list_of, 20, number, marks, 5, answer, ZF_ANSWER_MARK), ZF_ACCEPTED);
    for (i = 0; i < 5; i++) found = 2 * found + marks[i];
    expect(what, found, wanted);
    expect(what, zf_reduce((uint32_t)states, 2, 0, list_of, 20, number, map, states, list, 20, answer, ZF_ANSWER_REDUCE), ZF_ACCEPTED);
    expect(what, answer[3], states_left);
}

/* A number that is no sense is refused after the graph's own faults, and before a ring or too little room. */
static void no_sense(const char *what, uint32_t number) {
    static const uint16_t silent_ring[4] = {0, 0, 0, 0}, repeated[8] = {0, 0, 1, 0, 0, 0, 1, 0};
    expect(what, zf_mark(P1, number, marks, 4, answer, ZF_ANSWER_MARK), ZF_SENSE);
    expect(what, answer[0], ZF_SENSE);
    expect(what, answer[1], 1);
    expect(what, answer[2], 0);
    expect(what, zf_reduce(P1, number, map, 4, list, 16, answer, ZF_ANSWER_REDUCE), ZF_SENSE);
    expect(what, answer[3] + answer[4] + answer[5] + answer[6], 0);
    expect(what, zf_shrink(P1, number, map, 4, list, 16, answer, ZF_ANSWER_SHRINK), ZF_SENSE);
    expect(what, answer[3] + answer[4] + answer[5] + answer[6] + answer[7], 0);
    expect(what, zf_mark(4, 2, 0, repeated, 8, number, marks, 4, answer, ZF_ANSWER_MARK), ZF_ORDER);
    expect(what, zf_reduce(4, 2, 0, repeated, 8, number, map, 4, list, 16, answer, ZF_ANSWER_REDUCE), ZF_ORDER);
    expect(what, zf_shrink(4, 2, 0, repeated, 8, number, map, 4, list, 16, answer, ZF_ANSWER_SHRINK), ZF_ORDER);
    expect(what, zf_mark(4, 2, 0, silent_ring, 4, number, NULL, 0, answer, ZF_ANSWER_MARK), ZF_SENSE);
    expect(what, zf_reduce(4, 2, 0, silent_ring, 4, number, NULL, 0, NULL, 0, answer, ZF_ANSWER_REDUCE), ZF_SENSE);
    expect(what, zf_shrink(4, 2, 0, silent_ring, 4, number, NULL, 0, NULL, 0, answer, ZF_ANSWER_SHRINK), ZF_SENSE);
    expect(what, zf_mark(P1, number, NULL, 0, NULL, 0), ZF_SENSE);
    expect(what, zf_reduce(P1, number, NULL, 0, NULL, 0, NULL, 0), ZF_SENSE);
    expect(what, zf_shrink(P1, number, NULL, 0, NULL, 0, NULL, 0), ZF_SENSE);
}

/* The case that only R8 marks whole; one that R2 marks and R3 does not, and the other way round, each with a hop more so that there are five. */
static void senses(void) {
    static const uint16_t only_r8[20] = {0, 0, 1, 0, 0, 1, 2, 0, 1, 1, 3, 0, 2, 0, 4, 0, 4, 0, 3, 0};
    static const uint16_t not_r3[20] = {0, 1, 1, 0, 1, 0, 0, 0, 1, 1, 0, 0, 2, 0, 3, 0, 3, 0, 4, 0};
    static const uint16_t not_r2[20] = {0, 0, 1, 0, 0, 1, 0, 0, 1, 0, 2, 0, 2, 1, 1, 0, 3, 0, 4, 0};
    sense("R1", ZF_SENSE_R1, only_r8, 5, 3, 3);
    sense("R2", ZF_SENSE_R2, only_r8, 5, 3, 3);
    sense("R3", ZF_SENSE_R3, only_r8, 5, 3, 3);
    sense("R8", ZF_SENSE_R8, only_r8, 5, 19, 2);
    sense("R1, not R3", ZF_SENSE_R1, not_r3, 5, 3, 3);
    sense("R2, not R3", ZF_SENSE_R2, not_r3, 5, 11, 2);
    sense("R3, not R3", ZF_SENSE_R3, not_r3, 5, 3, 3);
    sense("R8, not R3", ZF_SENSE_R8, not_r3, 5, 11, 2);
    sense("R1, not R2", ZF_SENSE_R1, not_r2, 5, 5, 3);
    sense("R2, not R2", ZF_SENSE_R2, not_r2, 5, 5, 3);
    sense("R3, not R2", ZF_SENSE_R3, not_r2, 5, 21, 2);
    sense("R8, not R2", ZF_SENSE_R8, not_r2, 5, 21, 2);
    no_sense("sense 0", 0);
    no_sense("sense 4", 4);
    no_sense("sense 5", 5);
    no_sense("sense 6", 6);
    no_sense("sense 7", 7);
    no_sense("sense 9", 9);
    no_sense("sense 258", 258);
    no_sense("sense 65,537", 65537);
    no_sense("the highest sense", UINT32_MAX);
}

/* How many of the elements from a place up to another are not as they were set before a call. */
static uint64_t altered(const uint16_t *at, size_t from, size_t to) {
    uint64_t count = 0;
    for (; from < to; from++) count += at[from] != 256 * UNWRITTEN + UNWRITTEN;
    return count;
}

/* Shrinks so many numbers of a list in a sense and compares all that it leaves; what is behind the map and the hops stays as it was. */
static void shrunk(const char *what, uint32_t number, uint32_t states, const uint16_t *list_of, size_t len, const uint16_t *last_map, const uint16_t *last, size_t last_len,
                   const uint64_t *figures) {
    size_t i;
    memset(map, UNWRITTEN, sizeof map);
    memset(list, UNWRITTEN, sizeof list);
    for (i = 0; i < 16; i++) answer[i] = UNWRITTEN;
    expect(what, zf_shrink(states, 3, 0, list_of, len, number, map, ZF_MOST_STATES, list, NUMBERS, answer, 16), ZF_ACCEPTED);
    expect(what, answer[0], ZF_ACCEPTED);
    expect(what, answer[1], 1);
    expect(what, answer[2], 0);
    for (i = 0; i < 5; i++) expect(what, answer[3 + i], figures[i]);
    for (i = ZF_ANSWER_SHRINK; i < 16; i++) expect(what, answer[i], UNWRITTEN);
    for (i = 0; i < states; i++) expect(what, map[i], last_map[i]);
    for (i = 0; i < last_len; i++) expect(what, list[i], last[i]);
    expect(what, altered(map, states, ZF_MOST_STATES) + altered(list, last_len, NUMBERS), 0);
}

/* A refusal of shrink: its number and place, no figures, and outputs that stay as they were. */
static void not_shrunk(const char *what, uint32_t states, uint32_t initial, const uint16_t *list_of, size_t len, size_t map_len, size_t short_len,
                       uint32_t number, uint64_t place) {
    size_t i;
    memset(map, UNWRITTEN, sizeof map);
    memset(list, UNWRITTEN, sizeof list);
    expect(what, zf_shrink(states, 3, initial, list_of, len, ZF_SENSE_R1, map, map_len, list, short_len, answer, ZF_ANSWER_SHRINK), number);
    expect(what, answer[0], number);
    expect(what, answer[1], 1);
    expect(what, answer[2], place);
    for (i = 3; i < ZF_ANSWER_SHRINK; i++) expect(what, answer[i], 0);
    expect(what, altered(map, 0, ZF_MOST_STATES) + altered(list, 0, NUMBERS), 0);
}

/* A chain of three states that takes two reductions, but under R8 one, and keeps the lines of its last state; P2, in which nothing is marked, so that its lines stay; and
 * no hops. */
static void shrinking(void) {
    static const uint16_t chain[32] = {0, 0, 1, 1, 0, 1, 0, 2, 0, 2, 0, 3, 1, 0, 2, 4, 1, 1, 1, 5, 1, 2, 0, 6, 2, 1, 0, 7, 2, 2, 2, 0}, last[8] = {0, 1, 0, 7, 0, 2, 0, 0};
    static const uint16_t to_one[4] = {0, 0, 0, 0}, to_each[4] = {0, 1, 2, 3}, ring_behind[8] = {0, 0, 1, 0, 1, 0, 1, 0}, repeated[8] = {0, 0, 1, 0, 0, 0, 1, 9};
    static const uint16_t p2[12] = {0, 0, 1, 9, 0, 1, 2, 0, 1, 1, 3, 65535};
    static const uint64_t twice[5] = {1, 3, 2, 0, 2}, once[5] = {1, 3, 2, 0, 1}, never[5] = {4, 3, 3, 0, 0}, alone[5] = {2, 3, 0, 0, 0};
    static const uint32_t senses_of[4] = {ZF_SENSE_R1, ZF_SENSE_R2, ZF_SENSE_R3, ZF_SENSE_R8};
    static const char *const names_of[4] = {"shrink R1", "shrink R2", "shrink R3", "shrink R8"};
    size_t i;
    for (i = 0; i < 4; i++) {
        shrunk(names_of[i], senses_of[i], 3, chain, 32, to_one, last, 8, i < 3 ? twice : once);
        shrunk(names_of[i], senses_of[i], 4, p2, 12, to_each, p2, 12, never);
        shrunk(names_of[i], senses_of[i], 2, NULL, 0, to_each, NULL, 0, alone);
    }
    not_shrunk("shrink's ZF_COUNTS", 4, 0, p1, 15, 4, 16, ZF_COUNTS, 0);
    not_shrunk("shrink's ZF_INITIAL", 4, 4, p1, 16, 4, 16, ZF_INITIAL, 0);
    not_shrunk("shrink's ZF_HOP", 3, 0, p1, 16, 4, 16, ZF_HOP, 2);
    not_shrunk("shrink's ZF_ORDER", 4, 0, repeated, 8, 4, 16, ZF_ORDER, 1);
    not_shrunk("shrink's ZF_RING", 4, 0, ring_behind, 8, 4, 16, ZF_RING, 1);
    not_shrunk("shrink's ZF_RING before ZF_ROOM", 4, 0, ring_behind, 8, 0, 0, ZF_RING, 1);
    not_shrunk("shrink's ZF_ROOM for the map", 3, 0, chain, 32, 2, 32, ZF_ROOM, 0);
    not_shrunk("shrink's ZF_ROOM for the hops", 3, 0, chain, 32, 3, 31, ZF_ROOM, 0);
}

/* A list that differs from P1 in its lines alone, and its short hop: that of the representative, though another member's line is lower. */
static void lines(void) {
    static const uint16_t lined[16] = {0, 0, 1, 3, 0, 1, 2, 4, 1, 1, 3, 5, 2, 0, 3, 2}, three[4] = {0, 1, 1, 5}, alike[8] = {0, 0, 1, 3, 0, 0, 1, 4};
    /* from 0 three hops to states that become one */
    static const uint16_t fan[20] = {0, 1, 1, 0, 0, 1, 2, 7, 0, 1, 3, 3, 1, 0, 3, 1, 2, 0, 3, 1};
    static const uint8_t idle[15] = {10, 2, 0, 2, 0, 1, 0, 0, 0, 1, 0, 1, 0, 0, 0}, no_hops[7] = {10, 2, 0, 2, 0, 0, 0};
    size_t i;
    expect("hops that differ in the line alone", zf_check(4, 2, 0, alike, 8, answer, ZF_ANSWER_CHECK), ZF_ORDER);
    expect("their place", answer[2], 1);
    expect("lines that do not ascend", zf_check(4, 2, 0, lined, 16, answer, ZF_ANSWER_CHECK), ZF_ACCEPTED);
    expect("a hop with a line found", zf_find(4, 2, 0, lined, 16, 1, 1, 3, answer, ZF_ANSWER_FIND), ZF_ACCEPTED);
    expect("its place", answer[4], 2);
    expect("reduce with lines", zf_reduce(4, 2, 0, lined, 16, ZF_SENSE_R1, map, 4, list, 16, answer, ZF_ANSWER_REDUCE), ZF_ACCEPTED);
    for (i = 0; i < ZF_NUMBERS_A_HOP; i++) expect("the short hop", list[i], three[i]);
    expect("audit with other lines", zf_audit(4, 2, 0, lined, 16, 2, 2, 0, p1_short, 4, p1_map, 4, answer, ZF_ANSWER_AUDIT), ZF_ACCEPTED);
    expect("its faults", answer[3], 0);
    expect("reduce a fan", zf_reduce(4, 2, 0, fan, 20, ZF_SENSE_R1, map, 4, list, 20, answer, ZF_ANSWER_REDUCE), ZF_ACCEPTED);
    expect("its one hop", answer[5], 1);
    expect("the smallest line that is not 0", list[3], 3);
    expect("too little room for short hops", zf_reduce(4, 2, 0, lined, 16, ZF_SENSE_R1, map, 4, list, 15, answer, ZF_ANSWER_REDUCE), ZF_ROOM);
    expect("write with lines", zf_write(4, 2, 0, lined, 16, name, 2, file, 41, answer, ZF_ANSWER_WRITE), ZF_ACCEPTED);
    expect("its length", answer[3], 41);
    expect("its map byte", file[0], 14);
    expect("a line's low byte", file[33], 3);
    expect("the last line's low byte", file[39], 2);
    expect("read with lines", zf_read(file, 41, list, 16, answer, ZF_ANSWER_READ), ZF_ACCEPTED);
    for (i = 0; i < 16; i++) expect("the same list again", list[i], lined[i]);
    expect("the block's place", answer[7], 31);
    expect("the block's length", answer[8], 2);
    expect("a byte less", zf_read(file, 40, list, 16, answer, ZF_ANSWER_READ), ZF_FILE_ENDS);
    expect("room for three numbers a hop", zf_read(file, 41, list, 12, answer, ZF_ANSWER_READ), ZF_ROOM);
    expect("write without lines", zf_write(P1, NULL, 0, file, 31, answer, ZF_ANSWER_WRITE), ZF_ACCEPTED);
    expect("its map byte", file[0], 2);
    expect("lines all 0", zf_read(idle, 15, list, 16, answer, ZF_ANSWER_READ), ZF_BIT_MAP);
    expect("lines of no hops", zf_read(no_hops, 7, list, 16, answer, ZF_ANSWER_READ), ZF_BIT_MAP);
}

/* The longest file, written and read again, with lines up to the highest. */
static void longest(void) {
    size_t i;
    for (i = 0; i < ZF_MOST_HOPS; i++) hops[ZF_NUMBERS_A_HOP * i + 3] = (uint16_t)(65535 - i);
    for (i = 0; i < ZF_MOST_LABELS - 1; i++) {
        uint8_t *at = names + i * (ZF_LONGEST_NAME + 1);
        at[0] = ZF_LONGEST_NAME;
        at[1] = (uint8_t)(i / 256);
        at[2] = (uint8_t)(i % 256);
    }
    expect("the longest file", zf_write(FULL, names, sizeof names, file, ZF_LONGEST_FILE, answer, ZF_ANSWER_WRITE), ZF_ACCEPTED);
    expect("its length", answer[3], ZF_LONGEST_FILE);
    expect("too little room for it", zf_write(FULL, names, sizeof names, file, ZF_LONGEST_FILE - 1, answer, ZF_ANSWER_WRITE), ZF_ROOM);
    memset(list, UNWRITTEN, sizeof list);
    expect("read again", zf_read(file, ZF_LONGEST_FILE, list, NUMBERS, answer, ZF_ANSWER_READ), ZF_ACCEPTED);
    expect("the same list", (uint64_t)memcmp(list, hops, sizeof list), 0);
    expect("the block's place", answer[7], ZF_LONGEST_FILE - 2 * ZF_MOST_HOPS - sizeof names);
    expect("the block's length", answer[8], sizeof names);
    expect("a byte less than it", zf_read(file, ZF_LONGEST_FILE - 1, list, NUMBERS, answer, ZF_ANSWER_READ), ZF_FILE_ENDS);
    expect("its place", answer[2], ZF_LONGEST_FILE - 1);
}

/* An audit of P1 with so many numbers of p1_short and an initial state: its fault count, and the first fault. */
static void first_fault(const char *what, size_t numbers_len, uint32_t initial, uint64_t faults, uint64_t kind, uint64_t place, uint64_t state) {
    expect(what, zf_audit(P1, 2, 2, initial, p1_short, numbers_len, p1_map, 4, answer, ZF_ANSWER_AUDIT), ZF_ACCEPTED);
    expect(what, answer[3], faults);
    expect(what, answer[4], kind);
    expect(what, answer[5], place);
    expect(what, answer[6], state);
}

static void faults(void) {
    first_fault("ZF_FAULT_NONE", 4, 0, 0, ZF_FAULT_NONE, 0, 0);
    first_fault("ZF_FAULT_INITIAL", 0, 1, 3, ZF_FAULT_INITIAL, 0, 0);
    first_fault("ZF_FAULT_LOST", 0, 0, 2, ZF_FAULT_LOST, 1, 0);
    first_fault("ZF_FAULT_MADE_UP", 8, 0, 2, ZF_FAULT_MADE_UP, 1, 2);
    expect("an audit's refusal", zf_audit(P1, 2, 3, 1, p1_short, 0, p1_map, 4, answer, ZF_ANSWER_AUDIT), ZF_LABELS);
    expect("its faults", answer[3], 0);
    expect("its kind", answer[4], ZF_FAULT_NONE);
    expect("an audit's answer without the first fault", zf_audit(P1, 2, 2, 0, p1_short, 4, p1_map, 4, answer, 4), ZF_ROOM);
}

/* Whether P1 has a hop, and its place or how many come before it. */
static void found(const char *what, uint32_t from, uint32_t label, uint32_t to, uint64_t there, uint64_t place) {
    expect(what, zf_find(P1, from, label, to, answer, ZF_ANSWER_FIND), ZF_ACCEPTED);
    expect(what, answer[3], there);
    expect(what, answer[4], place);
}

static void places(void) {
    const uint32_t last = ZF_MOST_HOPS - 1;
    found("the first hop", 0, 0, 1, 1, 0);
    found("the last hop", 2, 0, 3, 1, 3);
    found("before all hops", 0, 0, 0, 0, 0);
    found("between hops", 1, 0, 3, 0, 2);
    found("behind all hops", 3, 1, 3, 0, 4);
    found("a from out of range", 65536, 0, 1, 0, 4);
    found("a label out of range", 0, 65536, 1, 0, 2);
    found("a to out of range", 0, 0, 65537, 0, 1);
    found("all out of range", UINT32_MAX, UINT32_MAX, UINT32_MAX, 0, 4);
    expect("the last of the most hops", zf_find(FULL, last / 5, last % 5, 0, answer, ZF_ANSWER_FIND), ZF_ACCEPTED);
    expect("its place", answer[4], last);
    expect("find's ZF_COUNTS", zf_find(4, 2, 0, p1, 15, 0, 0, 1, answer, ZF_ANSWER_FIND), ZF_COUNTS);
    expect("find's ZF_INITIAL", zf_find(4, 2, 4, p1, 16, 0, 0, 1, answer, ZF_ANSWER_FIND), ZF_INITIAL);
    expect("find's ZF_HOP", zf_find(4, 1, 0, p1, 16, 0, 0, 1, answer, ZF_ANSWER_FIND), ZF_HOP);
    expect("its place", answer[2], 1);
    expect("it finds nothing", answer[3] + answer[4], 0);
}

/* An accepted call of each entry, with an answer of so many elements. */
static size_t length;
static uint32_t check(size_t n) { return zf_check(P1, answer, n); }
static uint32_t mark(size_t n) { return zf_mark(P1, ZF_SENSE_R1, marks, 4, answer, n); }
static uint32_t mark_fast(size_t n) { return zf_mark_fast(P1, marks, 4, answer, n); }
static uint32_t reduce(size_t n) { return zf_reduce(P1, ZF_SENSE_R1, map, 4, list, 16, answer, n); }
static uint32_t shrink(size_t n) { return zf_shrink(P1, ZF_SENSE_R1, map, 4, list, 16, answer, n); }
static uint32_t audit(size_t n) { return zf_audit(P1, 2, 2, 0, p1_short, 8, p1_map, 4, answer, n); }
static uint32_t round_of(size_t n) { return zf_round(P1, 0, 1, answer, n); }
static uint32_t find(size_t n) { return zf_find(P1, 2, 0, 3, answer, n); }
static uint32_t hops_of(size_t n) { return zf_hops_of(1, 1, P1, 2, 2, 0, p1_short, 4, answer, n); }
static uint32_t write_p1(size_t n) { return zf_write(P1, name, 2, file, sizeof file, answer, n); }
static uint32_t read_p1(size_t n) { return zf_read(file, length, list, NUMBERS, answer, n); }

/* An answer that is just long enough is written and nothing behind it; a shorter one is not, nor is any other output. */
static void answer_of(const char *entry, uint32_t (*call)(size_t), size_t takes, uint64_t last) {
    size_t i;
    memset(marks, UNWRITTEN, sizeof marks);
    memset(map, UNWRITTEN, sizeof map);
    memset(list, UNWRITTEN, sizeof list);
    for (i = 0; i < 16; i++) answer[i] = UNWRITTEN;
    for (i = 0; i < takes; i++) expect(entry, call(i), ZF_ROOM);
    for (i = 0; i < 16; i++) expect(entry, answer[i], UNWRITTEN);
    expect(entry, marks[0], UNWRITTEN);
    expect(entry, map[0], 256 * UNWRITTEN + UNWRITTEN);
    expect(entry, list[0], 256 * UNWRITTEN + UNWRITTEN);
    expect(entry, call(takes), ZF_ACCEPTED);
    expect(entry, answer[takes - 1], last);
    for (i = takes; i < 16; i++) expect(entry, answer[i], UNWRITTEN);
}

static void answers(void) {
    answer_of("zf_check's answer", check, ZF_ANSWER_CHECK, 0);
    answer_of("zf_mark's answer", mark, ZF_ANSWER_MARK, 0);
    answer_of("zf_mark_fast's answer", mark_fast, ZF_ANSWER_MARK_FAST, 2);
    answer_of("zf_reduce's answer", reduce, ZF_ANSWER_REDUCE, 0);
    answer_of("zf_shrink's answer", shrink, ZF_ANSWER_SHRINK, 1);
    answer_of("zf_audit's answer", audit, ZF_ANSWER_AUDIT, 2);
    answer_of("zf_round's answer", round_of, ZF_ANSWER_ROUND, 1);
    answer_of("zf_find's answer", find, ZF_ANSWER_FIND, 3);
    answer_of("zf_hops_of's answer", hops_of, ZF_ANSWER_HOPS_OF, ZF_NUMBERS_A_HOP);
    answer_of("zf_write's answer", write_p1, ZF_ANSWER_WRITE, 33);
    length = (size_t)answer[3];
    answer_of("zf_read's answer", read_p1, ZF_ANSWER_READ, 2);
}

/* Null beside a length of 0, for every slice of every entry. */
static void nothing(void) {
    expect("check no hops", zf_check(1, 1, 0, NULL, 0, answer, ZF_ANSWER_CHECK), ZF_ACCEPTED);
    expect("check no answer", zf_check(1, 1, 0, NULL, 0, NULL, 0), ZF_ROOM);
    expect("mark no hops", zf_mark(1, 1, 0, NULL, 0, ZF_SENSE_R8, NULL, 0, answer, ZF_ANSWER_MARK), ZF_ACCEPTED);
    expect("mark no room", zf_mark(P1, ZF_SENSE_R1, NULL, 0, answer, ZF_ANSWER_MARK), ZF_ROOM);
    expect("mark no answer", zf_mark(P1, ZF_SENSE_R1, marks, 4, NULL, 0), ZF_ROOM);
    expect("mark_fast no hops", zf_mark_fast(1, 1, 0, NULL, 0, NULL, 0, answer, ZF_ANSWER_MARK_FAST), ZF_ACCEPTED);
    expect("its tests", answer[3], 0);
    expect("mark_fast no room", zf_mark_fast(P1, NULL, 0, answer, ZF_ANSWER_MARK_FAST), ZF_ROOM);
    expect("mark_fast no answer", zf_mark_fast(P1, marks, 4, NULL, 0), ZF_ROOM);
    expect("reduce no hops", zf_reduce(1, 1, 0, NULL, 0, ZF_SENSE_R8, map, 1, NULL, 0, answer, ZF_ANSWER_REDUCE), ZF_ACCEPTED);
    expect("its states", answer[3], 1);
    expect("its hops", answer[5], 0);
    expect("reduce no map", zf_reduce(1, 1, 0, NULL, 0, ZF_SENSE_R8, NULL, 0, NULL, 0, answer, ZF_ANSWER_REDUCE), ZF_ROOM);
    expect("reduce no room", zf_reduce(P1, ZF_SENSE_R1, map, 4, NULL, 0, answer, ZF_ANSWER_REDUCE), ZF_ROOM);
    expect("reduce no answer", zf_reduce(P1, ZF_SENSE_R1, map, 4, list, 16, NULL, 0), ZF_ROOM);
    expect("shrink no hops", zf_shrink(1, 1, 0, NULL, 0, ZF_SENSE_R8, map, 1, NULL, 0, answer, ZF_ANSWER_SHRINK), ZF_ACCEPTED);
    expect("its states", answer[3], 1);
    expect("its hops and reductions", answer[5] + answer[7], 0);
    expect("shrink no map", zf_shrink(1, 1, 0, NULL, 0, ZF_SENSE_R8, NULL, 0, NULL, 0, answer, ZF_ANSWER_SHRINK), ZF_ROOM);
    expect("shrink no room", zf_shrink(P1, ZF_SENSE_R1, map, 4, NULL, 0, answer, ZF_ANSWER_SHRINK), ZF_ROOM);
    expect("shrink no answer", zf_shrink(P1, ZF_SENSE_R1, map, 4, list, 16, NULL, 0), ZF_ROOM);
    expect("audit no hops", zf_audit(4, 2, 0, NULL, 0, 2, 2, 0, NULL, 0, p1_map, 4, answer, ZF_ANSWER_AUDIT), ZF_ACCEPTED);
    expect("its faults", answer[3], 0);
    expect("its first fault", answer[4], ZF_FAULT_NONE);
    expect("audit no map", zf_audit(P1, 2, 2, 0, p1_short, 4, NULL, 0, answer, ZF_ANSWER_AUDIT), ZF_MAP);
    expect("its place", answer[2], 0);
    expect("audit no answer", zf_audit(P1, 2, 2, 0, p1_short, 4, p1_map, 4, NULL, 0), ZF_ROOM);
    expect("round no hops", zf_round(1, 1, 0, NULL, 0, 0, 0, answer, ZF_ANSWER_ROUND), ZF_NO_SILENT_HOP);
    expect("round no answer", zf_round(P1, 0, 0, NULL, 0), ZF_ROOM);
    expect("find in no hops", zf_find(1, 1, 0, NULL, 0, 0, 0, 0, answer, ZF_ANSWER_FIND), ZF_ACCEPTED);
    expect("nothing", answer[3] + answer[4], 0);
    expect("find no answer", zf_find(P1, 0, 0, 1, NULL, 0), ZF_ROOM);
    expect("hops of no hops", zf_hops_of(1, 0, 1, 1, 0, NULL, 0, 1, 1, 0, NULL, 0, answer, ZF_ANSWER_HOPS_OF), ZF_ACCEPTED);
    expect("their length", answer[1], 0);
    expect("hops of no answer", zf_hops_of(1, 1, P1, P1, NULL, 0), ZF_ROOM);
    expect("read no file", zf_read(NULL, 0, list, NUMBERS, answer, ZF_ANSWER_READ), ZF_FILE_ENDS);
    expect("read no room", zf_read(file, length, NULL, 0, answer, ZF_ANSWER_READ), ZF_ROOM);
    expect("read no answer", zf_read(file, length, list, NUMBERS, NULL, 0), ZF_ROOM);
    expect("write no hops and no names", zf_write(1, 1, 0, NULL, 0, NULL, 0, file, sizeof file, answer, ZF_ANSWER_WRITE), ZF_ACCEPTED);
    expect("its length", answer[3], 5);
    expect("read no hops", zf_read(file, 5, NULL, 0, answer, ZF_ANSWER_READ), ZF_ACCEPTED);
    expect("write no room", zf_write(P1, NULL, 0, NULL, 0, answer, ZF_ANSWER_WRITE), ZF_ROOM);
    expect("write no answer", zf_write(P1, NULL, 0, file, sizeof file, NULL, 0), ZF_ROOM);
}

int main(void) {
    limits();
    numbers();
    senses();
    shrinking();
    lines();
    faults();
    places();
    answers();
    nothing();
    longest();
    printf("limits %d.%d.%d: %u passed, %u failed\n", ZF_VERSION_MAJOR, ZF_VERSION_MINOR, ZF_VERSION_PATCH, tried - failed, failed);
    return failed != 0;
}
