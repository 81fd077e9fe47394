/* Answers held to their numbers, every field by its name. The last line of a program is
 * 'N passed, M failed'. C99 and C++. */
#ifndef EXPECT_H
#define EXPECT_H

#include <inttypes.h>
#include <stdio.h>
#include <string.h>

#include "topjeska.h"

static unsigned passed, failed;

/* Counts a test, and prints the numbers of one that fails. */
static void count(int good, const char *what, uint64_t a, uint64_t b, uint64_t c, uint64_t d) {
    if (good) {
        passed++;
        return;
    }
    failed++;
    printf("failed: %s: %" PRIu64 " %" PRIu64 " %" PRIu64 " %" PRIu64 "\n", what, a, b, c, d);
}

/* The answer of each operation held to what its fields shall be, in the header's order. */
static void check_is(const char *what, topjeska_check_answer got, uint64_t refusal,
                     uint64_t place) {
    count(got.refusal == refusal && got.place == place, what, got.refusal, got.place, 0, 0);
}

static void plan_is(const char *what, topjeska_plan_answer got, uint64_t refusal, uint64_t place,
                    uint64_t lifts, uint64_t misplaced) {
    count(got.refusal == refusal && got.place == place && got.count == lifts &&
              got.misplaced == misplaced,
          what, got.refusal, got.place, got.count, got.misplaced);
}

static void deadlock_is(const char *what, topjeska_deadlock_answer got, uint64_t refusal,
                        uint64_t place, uint64_t slabs) {
    count(got.refusal == refusal && got.place == place && got.count == slabs, what, got.refusal,
          got.place, got.count, 0);
}

static void replay_is(const char *what, topjeska_replay_answer got, uint64_t refusal,
                      uint64_t verdict, uint64_t place) {
    count(got.refusal == refusal && got.verdict == verdict && got.place == place, what,
          got.refusal, got.verdict, got.place, 0);
}

static void training_is(const char *what, topjeska_training_answer got, uint64_t refusal,
                        uint64_t place) {
    count(got.refusal == refusal && got.place == place, what, got.refusal, got.place, 0, 0);
}

/* A generator held to its seed. */
static void seed_is(const char *what, topjeska_generator got, uint64_t seed) {
    count(got.seed == seed, what, got.seed, seed, 0, 0);
}

/* A space held to what it shall hold. */
static void space_is(const char *what, const uint16_t *space, const uint16_t *expected,
                     size_t len) {
    count(memcmp(space, expected, len * sizeof *space) == 0, what, space[0], space[1], space[2],
          space[3]);
}

/* Prints the sum; the exit status. */
static int ended(void) {
    printf("%u passed, %u failed\n", passed, failed);
    return failed == 0 && passed > 0 ? 0 : 1;
}

#endif
