/* Measures the stack that each entry of the library takes. Each call runs at full size in a thread of 256 KiB whose stack was painted before; what is
 * no longer paint was used. Every answer is checked, and every use is held to the header's promise. Given a file name, the longest file that the program takes is
 * written there, which is shorter than the longest legal one. */
#define _DEFAULT_SOURCE
#include <inttypes.h>
#include <pthread.h>
#include <stdio.h>
#include <string.h>
#include <sys/mman.h>
#include <unistd.h>
#include "zundrafipo.h"

#define THREAD 262144
#define PAINT 0xa5
#define NUMBERS (ZF_NUMBERS_A_HOP * ZF_MOST_HOPS)
#define LINES (2 * ZF_MOST_HOPS) /* bytes, at the end of the file */
#define NAMES (ZF_MOST_LABELS - 1)
#define BLOCK (NAMES * (ZF_LONGEST_NAME + 1))
#define FOR_PROGRAM 65536

static uint16_t tiles[NUMBERS], unordered[NUMBERS], ring[NUMBERS], falling[NUMBERS], turned[NUMBERS], again[NUMBERS], joined[NUMBERS];
static uint16_t knot[NUMBERS], small[NUMBERS];
static uint16_t read_hops[NUMBERS], written_hops[NUMBERS];
static uint16_t map[ZF_MOST_STATES], wrong_map[ZF_MOST_STATES], one_class[ZF_MOST_STATES], written_map[ZF_MOST_STATES];
static const uint16_t loops[16] = {0, 1, 0, 1, 0, 2, 0, 2, 0, 3, 0, 3, 0, 4, 0, 4}; /* all but the last are the ring's */
static uint8_t names[BLOCK], repeated[BLOCK], shorter[BLOCK], marks[ZF_MOST_HOPS], out[ZF_LONGEST_FILE];
static uint8_t file[ZF_LONGEST_FILE + 1], repeated_file[ZF_LONGEST_FILE], idle_file[ZF_LONGEST_FILE];
static uint64_t answer[16];
static size_t small_len;

/* With a line that is some number or 0. */
static uint16_t *put_hop(uint16_t *at, unsigned from, unsigned label, unsigned to) {
    at[0] = (uint16_t)from;
    at[1] = (uint16_t)label;
    at[2] = (uint16_t)to;
    at[3] = (uint16_t)((from * 40503u + to) % 7u == 0 ? 0 : 65535u - from - to);
    return at + ZF_NUMBERS_A_HOP;
}

/* 256 times P1 with seven labels: each four states become two. */
static void fill_tiles(void) {
    uint16_t *at = tiles;
    for (unsigned s = 0; s < ZF_MOST_STATES; s += 4) {
        at = put_hop(at, s, 0, s + 1);
        for (unsigned l = 1; l <= 7; l++) at = put_hop(at, s, l, s + 2);
        for (unsigned l = 1; l <= 7; l++) at = put_hop(at, s + 1, l, s + 3);
        at = put_hop(at, s + 2, 0, s + 3);
    }
    memcpy(unordered, tiles, sizeof tiles);
    /* the line stays */
    memcpy(unordered + NUMBERS - ZF_NUMBERS_A_HOP, unordered + NUMBERS - 2 * ZF_NUMBERS_A_HOP, 3 * sizeof *unordered);
}

/* All states on one silent ring, with three hops from each to itself. */
static void fill_ring(void) {
    uint16_t *at = ring;
    for (unsigned s = 0; s < ZF_MOST_STATES; s++) {
        at = put_hop(at, s, 0, (s + 1) % ZF_MOST_STATES);
        for (unsigned l = 1; l <= 3; l++) at = put_hop(at, s, l, s);
    }
}

/* From each state to the next a silent hop and three visible ones; the last has visible ones to the first. A silent hop closes while the next one is marked, and
 * so one falls a round: 1,023 tests in the first round, then one in each of 1,022. */
static void fill_falling(void) {
    uint16_t *at = falling;
    for (unsigned s = 0; s < ZF_MOST_STATES - 1; s++)
        for (unsigned l = 0; l <= 3; l++) at = put_hop(at, s, l, s + 1);
    for (unsigned l = 1; l <= 4; l++) at = put_hop(at, ZF_MOST_STATES - 1, l, 0);
}

/* State 0 has 3,585 hops to states whose silent hops lead to others in descending order: its images come far from where they go, and are sorted. */
static void fill_turned(void) {
    uint16_t *at = turned;
    for (unsigned l = 1; l <= 8; l++)
        for (unsigned i = 0; i < (l < 8 ? 511 : 8); i++) at = put_hop(at, 0, l, 1 + i);
    for (unsigned i = 0; i < 511; i++) at = put_hop(at, 1 + i, 0, ZF_MOST_STATES - 1 - i);
}

/* A silent chain in which state i has a hop labelled 1 to itself for odd i and to 0 for even i, and one labelled 2 the other way round: each reduction takes off one state,
 * but under R8 one takes off all. By labels 3 and 4, which change nothing, there are as many hops as there can be. */
static void fill_again(void) {
    uint16_t *at = again;
    for (unsigned s = 0; s < ZF_MOST_STATES; s++) {
        if (s + 1 < ZF_MOST_STATES) at = put_hop(at, s, 0, s + 1);
        at = put_hop(at, s, 1, s % 2 == 1 ? s : 0);
        at = put_hop(at, s, 2, s % 2 == 0 ? s : 0);
        at = put_hop(at, s, 3, s);
    }
    put_hop(at, ZF_MOST_STATES - 1, 4, 0);
}

/* State 0 has hops by eight labels to 448 states, whose silent hops lead to one: eight short hops are left of 3,584, each with one line of 448. */
static void fill_joined(void) {
    uint16_t *at = joined;
    for (unsigned l = 1; l <= 8; l++)
        for (unsigned i = 0; i < 448; i++) at = put_hop(at, 0, l, 1 + i);
    for (unsigned i = 0; i < 448; i++) at = put_hop(at, 1 + i, 0, ZF_MOST_STATES - 1);
    for (unsigned l = 1; at < joined + NUMBERS; l++) at = put_hop(at, ZF_MOST_STATES - 2, l, 0);
}

/* 64 states, a silent hop from each to each. */
static void fill_knot(void) {
    uint16_t *at = knot;
    for (unsigned s = 0; s < 64; s++)
        for (unsigned t = 0; t < 64; t++) at = put_hop(at, s, 0, t);
}

static void fill_names(void) {
    for (unsigned n = 0; n < NAMES; n++) {
        uint8_t *name = names + n * (ZF_LONGEST_NAME + 1);
        memset(name, 255, ZF_LONGEST_NAME + 1);
        name[0] = ZF_LONGEST_NAME;
        name[1] = (uint8_t)(n % 256);
        name[2] = (uint8_t)(n / 256);
    }
    memcpy(repeated, names, BLOCK);
    memcpy(repeated + BLOCK - ZF_LONGEST_NAME, repeated + 1, ZF_LONGEST_NAME);
}

/* The names with so many of them a byte shorter; the block's length. */
static size_t shorten_names(size_t by) {
    uint8_t *at = shorter;
    for (size_t n = 0; n < NAMES; n++) {
        uint8_t length = (uint8_t)(ZF_LONGEST_NAME - (n < by));
        memcpy(at, names + n * (ZF_LONGEST_NAME + 1), length + 1u);
        *at = length;
        at += length + 1;
    }
    return (size_t)(at - shorter);
}

#define FULL ZF_MOST_STATES, ZF_MOST_LABELS, ZF_MOST_STATES - 1
#define LIST(hops) hops, NUMBERS

static uint32_t check(void) { return zf_check(FULL, LIST(tiles), answer, ZF_ANSWER_CHECK); }
static uint32_t check_order(void) { return zf_check(FULL, LIST(unordered), answer, ZF_ANSWER_CHECK); }

static uint32_t mark_in(uint32_t sense, const uint16_t *hops, size_t answer_len) {
    return zf_mark(FULL, LIST(hops), sense, marks, ZF_MOST_HOPS, answer, answer_len);
}
static uint32_t mark(void) { return mark_in(ZF_SENSE_R1, tiles, ZF_ANSWER_MARK); }
static uint32_t mark_r2(void) { return mark_in(ZF_SENSE_R2, tiles, ZF_ANSWER_MARK); }
static uint32_t mark_r3(void) { return mark_in(ZF_SENSE_R3, tiles, ZF_ANSWER_MARK); }
static uint32_t mark_r8(void) { return mark_in(ZF_SENSE_R8, tiles, ZF_ANSWER_MARK); }
static uint32_t mark_falling(void) { return mark_in(ZF_SENSE_R1, falling, ZF_ANSWER_MARK); }
static uint32_t mark_falling_r2(void) { return mark_in(ZF_SENSE_R2, falling, ZF_ANSWER_MARK); }
static uint32_t mark_falling_r3(void) { return mark_in(ZF_SENSE_R3, falling, ZF_ANSWER_MARK); }
static uint32_t mark_falling_r8(void) { return mark_in(ZF_SENSE_R8, falling, ZF_ANSWER_MARK); }
static uint32_t mark_sense(void) { return mark_in(4, tiles, ZF_ANSWER_MARK); }
static uint32_t mark_ring(void) { return mark_in(ZF_SENSE_R8, ring, ZF_ANSWER_MARK); }
static uint32_t mark_short(void) { return mark_in(ZF_SENSE_R1, tiles, ZF_ANSWER_MARK - 1); }
static uint32_t mark_short_r8(void) { return mark_in(ZF_SENSE_R8, tiles, ZF_ANSWER_MARK - 1); }

static uint32_t fast_at(const uint16_t *hops, size_t answer_len) { return zf_mark_fast(FULL, LIST(hops), marks, ZF_MOST_HOPS, answer, answer_len); }
static uint32_t fast(void) { return fast_at(tiles, ZF_ANSWER_MARK_FAST); }
static uint32_t fast_falling(void) { return fast_at(falling, ZF_ANSWER_MARK_FAST); }
static uint32_t fast_ring(void) { return fast_at(ring, ZF_ANSWER_MARK_FAST); }
static uint32_t fast_short(void) { return fast_at(falling, ZF_ANSWER_MARK_FAST - 1); }

static uint32_t reduce_in(uint32_t sense, const uint16_t *hops, size_t answer_len) {
    return zf_reduce(FULL, LIST(hops), sense, written_map, ZF_MOST_STATES, LIST(written_hops), answer, answer_len);
}
static uint32_t reduce(void) { return reduce_in(ZF_SENSE_R1, tiles, ZF_ANSWER_REDUCE); }
static uint32_t reduce_r2(void) { return reduce_in(ZF_SENSE_R2, tiles, ZF_ANSWER_REDUCE); }
static uint32_t reduce_r3(void) { return reduce_in(ZF_SENSE_R3, tiles, ZF_ANSWER_REDUCE); }
static uint32_t reduce_r8(void) { return reduce_in(ZF_SENSE_R8, tiles, ZF_ANSWER_REDUCE); }
static uint32_t reduce_falling(void) { return reduce_in(ZF_SENSE_R1, falling, ZF_ANSWER_REDUCE); }
static uint32_t reduce_falling_r3(void) { return reduce_in(ZF_SENSE_R3, falling, ZF_ANSWER_REDUCE); }
static uint32_t reduce_turned(void) { return reduce_in(ZF_SENSE_R1, turned, ZF_ANSWER_REDUCE); }
static uint32_t reduce_turned_r2(void) { return reduce_in(ZF_SENSE_R2, turned, ZF_ANSWER_REDUCE); }
static uint32_t reduce_turned_r3(void) { return reduce_in(ZF_SENSE_R3, turned, ZF_ANSWER_REDUCE); }
static uint32_t reduce_turned_r8(void) { return reduce_in(ZF_SENSE_R8, turned, ZF_ANSWER_REDUCE); }
static uint32_t reduce_joined(void) { return reduce_in(ZF_SENSE_R1, joined, ZF_ANSWER_REDUCE); }
static uint32_t reduce_joined_r8(void) { return reduce_in(ZF_SENSE_R8, joined, ZF_ANSWER_REDUCE); }
static uint32_t reduce_sense(void) { return reduce_in(4, tiles, ZF_ANSWER_REDUCE); }
static uint32_t reduce_ring(void) { return reduce_in(ZF_SENSE_R8, ring, ZF_ANSWER_REDUCE); }
static uint32_t reduce_short(void) { return reduce_in(ZF_SENSE_R1, tiles, ZF_ANSWER_REDUCE - 1); }
static uint32_t reduce_short_r8(void) { return reduce_in(ZF_SENSE_R8, tiles, ZF_ANSWER_REDUCE - 1); }

static uint32_t shrink_in(uint32_t sense, const uint16_t *hops, size_t answer_len) {
    return zf_shrink(FULL, LIST(hops), sense, written_map, ZF_MOST_STATES, LIST(written_hops), answer, answer_len);
}
static uint32_t shrink(void) { return shrink_in(ZF_SENSE_R1, tiles, ZF_ANSWER_SHRINK); }
static uint32_t shrink_r2(void) { return shrink_in(ZF_SENSE_R2, tiles, ZF_ANSWER_SHRINK); }
static uint32_t shrink_r3(void) { return shrink_in(ZF_SENSE_R3, tiles, ZF_ANSWER_SHRINK); }
static uint32_t shrink_r8(void) { return shrink_in(ZF_SENSE_R8, tiles, ZF_ANSWER_SHRINK); }
static uint32_t shrink_again(void) { return shrink_in(ZF_SENSE_R1, again, ZF_ANSWER_SHRINK); }
static uint32_t shrink_again_r2(void) { return shrink_in(ZF_SENSE_R2, again, ZF_ANSWER_SHRINK); }
static uint32_t shrink_again_r3(void) { return shrink_in(ZF_SENSE_R3, again, ZF_ANSWER_SHRINK); }
static uint32_t shrink_again_r8(void) { return shrink_in(ZF_SENSE_R8, again, ZF_ANSWER_SHRINK); }
static uint32_t shrink_falling(void) { return shrink_in(ZF_SENSE_R1, falling, ZF_ANSWER_SHRINK); }
static uint32_t shrink_falling_r2(void) { return shrink_in(ZF_SENSE_R2, falling, ZF_ANSWER_SHRINK); }
static uint32_t shrink_falling_r3(void) { return shrink_in(ZF_SENSE_R3, falling, ZF_ANSWER_SHRINK); }
static uint32_t shrink_falling_r8(void) { return shrink_in(ZF_SENSE_R8, falling, ZF_ANSWER_SHRINK); }
static uint32_t shrink_turned(void) { return shrink_in(ZF_SENSE_R1, turned, ZF_ANSWER_SHRINK); }
static uint32_t shrink_turned_r2(void) { return shrink_in(ZF_SENSE_R2, turned, ZF_ANSWER_SHRINK); }
static uint32_t shrink_turned_r3(void) { return shrink_in(ZF_SENSE_R3, turned, ZF_ANSWER_SHRINK); }
static uint32_t shrink_turned_r8(void) { return shrink_in(ZF_SENSE_R8, turned, ZF_ANSWER_SHRINK); }
static uint32_t shrink_joined(void) { return shrink_in(ZF_SENSE_R1, joined, ZF_ANSWER_SHRINK); }
static uint32_t shrink_joined_r8(void) { return shrink_in(ZF_SENSE_R8, joined, ZF_ANSWER_SHRINK); }
static uint32_t shrink_sense(void) { return shrink_in(4, tiles, ZF_ANSWER_SHRINK); }
static uint32_t shrink_ring(void) { return shrink_in(ZF_SENSE_R8, ring, ZF_ANSWER_SHRINK); }
static uint32_t shrink_short(void) { return shrink_in(ZF_SENSE_R1, again, ZF_ANSWER_SHRINK - 1); }
static uint32_t shrink_short_r8(void) { return shrink_in(ZF_SENSE_R8, again, ZF_ANSWER_SHRINK - 1); }

static uint32_t audit_with(const uint16_t *by) {
    return zf_audit(FULL, LIST(tiles), ZF_MOST_STATES / 2, ZF_MOST_LABELS, ZF_MOST_STATES / 2 - 1, small, small_len, by, ZF_MOST_STATES, answer, ZF_ANSWER_AUDIT);
}
static uint32_t audit(void) { return audit_with(map); }
static uint32_t audit_map(void) { return audit_with(wrong_map); }
static uint32_t audit_apart(void) { return audit_with(one_class); }
static uint32_t audit_ring_with(size_t loops_len, size_t answer_len) {
    return zf_audit(FULL, LIST(ring), 1, ZF_MOST_LABELS, 0, loops, loops_len, one_class, ZF_MOST_STATES, answer, answer_len);
}
static uint32_t audit_ring(void) { return audit_ring_with(12, ZF_ANSWER_AUDIT); }
static uint32_t audit_made_up(void) { return audit_ring_with(16, ZF_ANSWER_AUDIT); }
static uint32_t audit_short(void) { return audit_ring_with(16, ZF_ANSWER_AUDIT - 1); }

static uint32_t round_knot(void) { return zf_round(64, ZF_MOST_LABELS, 63, LIST(knot), ZF_MOST_HOPS - 1, ZF_MOST_ROUNDS, answer, ZF_ANSWER_ROUND); }
static uint32_t round_tiles(void) { return zf_round(FULL, LIST(tiles), ZF_MOST_HOPS - 1, ZF_MOST_ROUNDS, answer, ZF_ANSWER_ROUND); }
static uint32_t round_visible(void) { return zf_round(FULL, LIST(tiles), ZF_MOST_HOPS - 2, ZF_MOST_ROUNDS, answer, ZF_ANSWER_ROUND); }

static uint32_t find_in(const uint16_t *hops, uint32_t to, size_t answer_len) {
    return zf_find(FULL, LIST(hops), ZF_MOST_STATES - 2, 0, to, answer, answer_len);
}
static uint32_t find_last(void) { return find_in(tiles, ZF_MOST_STATES - 1, ZF_ANSWER_FIND); }
static uint32_t find_far(void) { return find_in(tiles, UINT32_MAX, ZF_ANSWER_FIND); }
static uint32_t find_order(void) { return find_in(unordered, ZF_MOST_STATES - 1, ZF_ANSWER_FIND); }
static uint32_t find_short(void) { return find_in(tiles, ZF_MOST_STATES - 1, ZF_ANSWER_FIND - 1); }

static uint32_t hops_of(void) { return zf_hops_of(2, ZF_MOST_STATES - 2, FULL, LIST(ring), FULL, LIST(tiles), answer, ZF_ANSWER_HOPS_OF); }
static uint32_t hops_of_refused(void) { return zf_hops_of(2, ZF_MOST_STATES - 2, FULL, LIST(unordered), FULL, LIST(tiles), answer, ZF_ANSWER_HOPS_OF); }

static uint32_t read_longest(void) { return zf_read(file, ZF_LONGEST_FILE, LIST(read_hops), answer, ZF_ANSWER_READ); }
static uint32_t read_repeated(void) { return zf_read(repeated_file, ZF_LONGEST_FILE, LIST(read_hops), answer, ZF_ANSWER_READ); }
static uint32_t read_idle(void) { return zf_read(idle_file, ZF_LONGEST_FILE, LIST(read_hops), answer, ZF_ANSWER_READ); }
static uint32_t read_longer(void) { return zf_read(file, ZF_LONGEST_FILE + 1, LIST(read_hops), answer, ZF_ANSWER_READ); }
static uint32_t read_short(void) { return zf_read(file, ZF_LONGEST_FILE, LIST(read_hops), answer, ZF_ANSWER_READ - 1); }

static uint32_t write_to(const uint8_t *block, size_t room, size_t answer_len) {
    return zf_write(FULL, LIST(tiles), block, BLOCK, out, room, answer, answer_len);
}
static uint32_t write_longest(void) { return write_to(names, ZF_LONGEST_FILE, ZF_ANSWER_WRITE); }
static uint32_t write_repeated(void) { return write_to(repeated, ZF_LONGEST_FILE, ZF_ANSWER_WRITE); }
static uint32_t write_room(void) { return write_to(names, ZF_LONGEST_FILE - 1, ZF_ANSWER_WRITE); }
static uint32_t write_short(void) { return write_to(names, ZF_LONGEST_FILE, ZF_ANSWER_WRITE - 1); }

/* A call, what it must return and leave at one place of its answer, and how much stack it may take. */
struct call {
    const char *entry, *what;
    uint32_t (*run)(void);
    uint32_t number;
    unsigned at;
    uint64_t figure;
    size_t most;
};

static const struct call calls[] = {
    {"zf_check", "accepted", check, ZF_ACCEPTED, 1, 1, ZF_STACK_CHECK},
    {"zf_check", "the last hop not above the one before", check_order, ZF_ORDER, 2, ZF_MOST_HOPS - 1, ZF_STACK_CHECK},
    {"zf_mark", "R1", mark, ZF_ACCEPTED, 1, 1, ZF_STACK_MARK},
    {"zf_mark", "R2", mark_r2, ZF_ACCEPTED, 1, 1, ZF_STACK_MARK},
    {"zf_mark", "R3", mark_r3, ZF_ACCEPTED, 1, 1, ZF_STACK_MARK},
    {"zf_mark", "R8", mark_r8, ZF_ACCEPTED, 1, 1, ZF_STACK_MARK},
    {"zf_mark", "R1, a chain that falls a hop a round", mark_falling, ZF_ACCEPTED, 1, 1, ZF_STACK_MARK},
    {"zf_mark", "R2, the chain", mark_falling_r2, ZF_ACCEPTED, 1, 1, ZF_STACK_MARK},
    {"zf_mark", "R3, the chain", mark_falling_r3, ZF_ACCEPTED, 1, 1, ZF_STACK_MARK},
    {"zf_mark", "R8, the chain", mark_falling_r8, ZF_ACCEPTED, 1, 1, ZF_STACK_MARK},
    {"zf_mark", "a sense that is none", mark_sense, ZF_SENSE, 2, 0, ZF_STACK_MARK},
    {"zf_mark", "a ring of 1,024 states", mark_ring, ZF_RING, 2, 0, ZF_STACK_MARK},
    {"zf_mark", "R1, answer too short", mark_short, ZF_ROOM, 0, 0, ZF_STACK_MARK},
    {"zf_mark", "R8, answer too short", mark_short_r8, ZF_ROOM, 0, 0, ZF_STACK_MARK},
    {"zf_mark_fast", "nothing falls", fast, ZF_ACCEPTED, 3, 512, ZF_STACK_MARK_FAST},
    {"zf_mark_fast", "a chain that falls a hop a round", fast_falling, ZF_ACCEPTED, 3, 2045, ZF_STACK_MARK_FAST},
    {"zf_mark_fast", "a ring of 1,024 states", fast_ring, ZF_RING, 3, 0, ZF_STACK_MARK_FAST},
    {"zf_mark_fast", "answer too short", fast_short, ZF_ROOM, 0, 0, ZF_STACK_MARK_FAST},
    {"zf_reduce", "R1", reduce, ZF_ACCEPTED, 5, 1792, ZF_STACK_REDUCE},
    {"zf_reduce", "R2", reduce_r2, ZF_ACCEPTED, 5, 1792, ZF_STACK_REDUCE},
    {"zf_reduce", "R3", reduce_r3, ZF_ACCEPTED, 5, 1792, ZF_STACK_REDUCE},
    {"zf_reduce", "R8", reduce_r8, ZF_ACCEPTED, 5, 1792, ZF_STACK_REDUCE},
    {"zf_reduce", "R1, a chain that falls a hop a round", reduce_falling, ZF_ACCEPTED, 5, ZF_MOST_HOPS, ZF_STACK_REDUCE},
    {"zf_reduce", "R3, the chain", reduce_falling_r3, ZF_ACCEPTED, 5, ZF_MOST_HOPS, ZF_STACK_REDUCE},
    {"zf_reduce", "R1, 3,585 images in descending order", reduce_turned, ZF_ACCEPTED, 5, 3585, ZF_STACK_REDUCE},
    {"zf_reduce", "R2, the images", reduce_turned_r2, ZF_ACCEPTED, 5, 3585, ZF_STACK_REDUCE},
    {"zf_reduce", "R3, the images", reduce_turned_r3, ZF_ACCEPTED, 5, 3585, ZF_STACK_REDUCE},
    {"zf_reduce", "R8, the images", reduce_turned_r8, ZF_ACCEPTED, 5, 3585, ZF_STACK_REDUCE},
    {"zf_reduce", "R1, 448 lines for each of eight hops", reduce_joined, ZF_ACCEPTED, 5, 72, ZF_STACK_REDUCE},
    {"zf_reduce", "R8, these lines", reduce_joined_r8, ZF_ACCEPTED, 5, 72, ZF_STACK_REDUCE},
    {"zf_reduce", "a sense that is none", reduce_sense, ZF_SENSE, 5, 0, ZF_STACK_REDUCE},
    {"zf_reduce", "a ring of 1,024 states", reduce_ring, ZF_RING, 5, 0, ZF_STACK_REDUCE},
    {"zf_reduce", "R1, answer too short", reduce_short, ZF_ROOM, 0, 0, ZF_STACK_REDUCE},
    {"zf_reduce", "R8, answer too short", reduce_short_r8, ZF_ROOM, 0, 0, ZF_STACK_REDUCE},
    {"zf_shrink", "R1", shrink, ZF_ACCEPTED, 5, 1792, ZF_STACK_SHRINK},
    {"zf_shrink", "R2", shrink_r2, ZF_ACCEPTED, 5, 1792, ZF_STACK_SHRINK},
    {"zf_shrink", "R3", shrink_r3, ZF_ACCEPTED, 5, 1792, ZF_STACK_SHRINK},
    {"zf_shrink", "R8", shrink_r8, ZF_ACCEPTED, 5, 1792, ZF_STACK_SHRINK},
    {"zf_shrink", "R1, a chain, each reduction takes one state", shrink_again, ZF_ACCEPTED, 7, ZF_MOST_STATES - 1, ZF_STACK_SHRINK},
    {"zf_shrink", "R2, that chain", shrink_again_r2, ZF_ACCEPTED, 7, ZF_MOST_STATES - 1, ZF_STACK_SHRINK},
    {"zf_shrink", "R3, that chain", shrink_again_r3, ZF_ACCEPTED, 7, ZF_MOST_STATES - 1, ZF_STACK_SHRINK},
    {"zf_shrink", "R8, that chain, in one reduction", shrink_again_r8, ZF_ACCEPTED, 7, 1, ZF_STACK_SHRINK},
    {"zf_shrink", "R1, a chain that falls a hop a round", shrink_falling, ZF_ACCEPTED, 7, 0, ZF_STACK_SHRINK},
    {"zf_shrink", "R2, the chain", shrink_falling_r2, ZF_ACCEPTED, 7, 1, ZF_STACK_SHRINK},
    {"zf_shrink", "R3, the chain", shrink_falling_r3, ZF_ACCEPTED, 7, 0, ZF_STACK_SHRINK},
    {"zf_shrink", "R8, the chain", shrink_falling_r8, ZF_ACCEPTED, 7, 1, ZF_STACK_SHRINK},
    {"zf_shrink", "R1, 3,585 images in descending order", shrink_turned, ZF_ACCEPTED, 5, 3585, ZF_STACK_SHRINK},
    {"zf_shrink", "R2, the images", shrink_turned_r2, ZF_ACCEPTED, 5, 3585, ZF_STACK_SHRINK},
    {"zf_shrink", "R3, the images", shrink_turned_r3, ZF_ACCEPTED, 5, 3585, ZF_STACK_SHRINK},
    {"zf_shrink", "R8, the images", shrink_turned_r8, ZF_ACCEPTED, 5, 3585, ZF_STACK_SHRINK},
    {"zf_shrink", "R1, 448 lines for each of eight hops", shrink_joined, ZF_ACCEPTED, 5, 72, ZF_STACK_SHRINK},
    {"zf_shrink", "R8, these lines", shrink_joined_r8, ZF_ACCEPTED, 5, 72, ZF_STACK_SHRINK},
    {"zf_shrink", "a sense that is none", shrink_sense, ZF_SENSE, 7, 0, ZF_STACK_SHRINK},
    {"zf_shrink", "a ring of 1,024 states", shrink_ring, ZF_RING, 7, 0, ZF_STACK_SHRINK},
    {"zf_shrink", "R1, answer too short", shrink_short, ZF_ROOM, 0, 0, ZF_STACK_SHRINK},
    {"zf_shrink", "R8, answer too short", shrink_short_r8, ZF_ROOM, 0, 0, ZF_STACK_SHRINK},
    {"zf_audit", "of what reduce left", audit, ZF_ACCEPTED, 3, 0, ZF_STACK_AUDIT},
    {"zf_audit", "a ring of 1,024 states in one class", audit_ring, ZF_ACCEPTED, 3, 0, ZF_STACK_AUDIT},
    {"zf_audit", "all states to one, the initial one too", audit_apart, ZF_ACCEPTED, 4, ZF_FAULT_INITIAL, ZF_STACK_AUDIT},
    {"zf_audit", "the ring, no state answers the last hop", audit_made_up, ZF_ACCEPTED, 5, 3, ZF_STACK_AUDIT},
    {"zf_audit", "answer too short", audit_short, ZF_ROOM, 0, 0, ZF_STACK_AUDIT},
    {"zf_audit", "the map's last entry too high", audit_map, ZF_MAP, 2, ZF_MOST_STATES - 1, ZF_STACK_AUDIT},
    {"zf_round", "4 rounds, 64 states, silent hops between all", round_knot, ZF_ACCEPTED, 3, 1, ZF_STACK_ROUND},
    {"zf_round", "4 rounds, 1,024 states", round_tiles, ZF_ACCEPTED, 3, 1, ZF_STACK_ROUND},
    {"zf_round", "a visible hop", round_visible, ZF_NO_SILENT_HOP, 3, 0, ZF_STACK_ROUND},
    {"zf_find", "the last of 4,096 hops", find_last, ZF_ACCEPTED, 4, ZF_MOST_HOPS - 1, ZF_STACK_FIND},
    {"zf_find", "a number out of range, behind all hops", find_far, ZF_ACCEPTED, 4, ZF_MOST_HOPS, ZF_STACK_FIND},
    {"zf_find", "the last hop not above the one before", find_order, ZF_ORDER, 4, 0, ZF_STACK_FIND},
    {"zf_find", "answer too short", find_short, ZF_ROOM, 0, 0, ZF_STACK_FIND},
    {"zf_hops_of", "side 2", hops_of, ZF_ACCEPTED, 0, NUMBERS - ZF_NUMBERS_A_HOP, ZF_STACK_HOPS_OF},
    {"zf_hops_of", "graph 1 refused", hops_of_refused, ZF_ACCEPTED, 0, 0, ZF_STACK_HOPS_OF},
    {"zf_read", "the longest legal file", read_longest, ZF_ACCEPTED, 8, BLOCK, ZF_STACK_READ},
    {"zf_read", "the last name equal to the first", read_repeated, ZF_NAME, 2, ZF_LONGEST_FILE - LINES - 33, ZF_STACK_READ},
    {"zf_read", "lines all 0", read_idle, ZF_BIT_MAP, 2, 0, ZF_STACK_READ},
    {"zf_read", "a byte more", read_longer, ZF_FILE_LONG, 2, ZF_LONGEST_FILE, ZF_STACK_READ},
    {"zf_read", "answer too short", read_short, ZF_ROOM, 0, 0, ZF_STACK_READ},
    {"zf_write", "the longest legal file", write_longest, ZF_ACCEPTED, 3, ZF_LONGEST_FILE, ZF_STACK_WRITE},
    {"zf_write", "the last name equal to the first", write_repeated, ZF_NAME, 2, BLOCK - 33, ZF_STACK_WRITE},
    {"zf_write", "a byte too little room", write_room, ZF_ROOM, 3, 0, ZF_STACK_WRITE},
    {"zf_write", "answer too short", write_short, ZF_ROOM, 0, 0, ZF_STACK_WRITE},
};

struct task {
    uint32_t (*run)(void);
    uint32_t number;
    const unsigned char *top;
};

static void *in_thread(void *given) {
    struct task *task = given;
    task->top = __builtin_frame_address(0);
    task->number = task->run();
    return NULL;
}

/* Runs a task in a thread of 256 KiB above a page that nobody may touch; returns how many bytes of its stack were used, or 0 where there is no thread. */
static size_t stack_of(struct task *task) {
    size_t page = (size_t)sysconf(_SC_PAGESIZE), used = 0;
    unsigned char *area = mmap(NULL, page + THREAD, PROT_READ | PROT_WRITE, MAP_PRIVATE | MAP_ANONYMOUS, -1, 0);
    pthread_attr_t attributes;
    pthread_t thread;
    if (area == MAP_FAILED) return 0;
    memset(area + page, PAINT, THREAD);
    if (mprotect(area, page, PROT_NONE) == 0 && pthread_attr_init(&attributes) == 0) {
        if (pthread_attr_setstack(&attributes, area + page, THREAD) == 0 && pthread_create(&thread, &attributes, in_thread, task) == 0) {
            const unsigned char *low = area + page;
            pthread_join(thread, NULL);
            while (*low == PAINT) low++;
            used = (size_t)(task->top - low);
        }
        pthread_attr_destroy(&attributes);
    }
    munmap(area, page + THREAD);
    return used;
}

/* What the calls are lent: the longest legal file and the reduced graph come from the entries themselves. */
static int prepare(const char *path) {
    fill_tiles();
    fill_ring();
    fill_falling();
    fill_turned();
    fill_again();
    fill_joined();
    fill_knot();
    fill_names();
    if (zf_write(FULL, LIST(tiles), names, BLOCK, file, sizeof file, answer, ZF_ANSWER_WRITE) != ZF_ACCEPTED || answer[3] != ZF_LONGEST_FILE) return 0;
    memcpy(repeated_file, file, ZF_LONGEST_FILE);
    memcpy(repeated_file + ZF_LONGEST_FILE - LINES - BLOCK, repeated, BLOCK);
    memcpy(idle_file, file, ZF_LONGEST_FILE - LINES);
    if (zf_reduce(FULL, LIST(tiles), ZF_SENSE_R1, map, ZF_MOST_STATES, LIST(small), answer, ZF_ANSWER_REDUCE) != ZF_ACCEPTED || answer[3] != 512) return 0;
    small_len = ZF_NUMBERS_A_HOP * (size_t)answer[5];
    memcpy(wrong_map, map, sizeof map);
    wrong_map[ZF_MOST_STATES - 1] = ZF_MOST_STATES / 2;
    if (path != NULL) {
        size_t block = shorten_names(ZF_LONGEST_FILE - FOR_PROGRAM);
        FILE *to = fopen(path, "wb");
        if (to == NULL) return 0;
        if (zf_write(FULL, LIST(tiles), shorter, block, out, sizeof out, answer, ZF_ANSWER_WRITE) != ZF_ACCEPTED || answer[3] != FOR_PROGRAM) return fclose(to), 0;
        if (fwrite(out, 1, FOR_PROGRAM, to) != FOR_PROGRAM) return fclose(to), 0;
        if (fclose(to) != 0) return 0;
    }
    return 1;
}

int main(int argc, char **argv) {
    unsigned failed = 0;
    if (!prepare(argc > 1 ? argv[1] : NULL)) {
        fprintf(stderr, "stack: the longest files or their graph's reduction could not be made\n");
        return 1;
    }
    for (size_t i = 0; i < sizeof calls / sizeof *calls; i++) {
        const struct call *call = &calls[i];
        struct task task = {call->run, UINT32_MAX, NULL};
        size_t used;
        memset(answer, 0, sizeof answer);
        used = stack_of(&task);
        printf("stack: %-12s %-45s %7zu of %6zu\n", call->entry, call->what, used, call->most);
        if (task.number != call->number || answer[call->at] != call->figure || used == 0 || used > call->most) {
            failed++;
            fprintf(stderr, "stack: %s, %s: number %" PRIu32 ", figure %" PRIu64 ", expected %" PRIu32 ", %" PRIu64 ", and at most %zu bytes\n", call->entry, call->what,
                    task.number, answer[call->at], call->number, call->figure, call->most);
        }
    }
    printf("stack: %zu calls, %u failed\n", sizeof calls / sizeof *calls, failed);
    return failed != 0;
}
