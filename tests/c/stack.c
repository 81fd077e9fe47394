/* The stack of every operation at its most slabs and at the panel's, with lengths and without, held
 * to TOPJESKA_STACK_BYTES. Each runs in a thread of its own on a painted stack, and what it used is
 * counted from the end of that stack down to where the paint begins: thread and all, so that a
 * thread with TOPJESKA_STACK_BYTES is enough. The answers are held too, so that no call ends early,
 * and those of the panel's entry to the yard office's. */
#define _XOPEN_SOURCE 600
#include <pthread.h>
#include <stdlib.h>

#include "expect.h"

enum { SLABS = TOPJESKA_MOST_SLABS, FEW = TOPJESKA_MOST_PANEL, TRAINED = TOPJESKA_MOST_TRAINED };

/* So much stack is lent that a call above the bound is measured and does not crash. */
enum { PAINT = 0xA5, PAGE = 4096, LENT = 1 << 20 };

/* The operations, those on sheets first, and the most bytes that each used. */
enum { CHECK, REPLAY, PLAN, PANEL, DEADLOCK, TRAINING, OPERATIONS };
static const char *const names[OPERATIONS] = {
    "check", "replay", "planning", "planning by the panel", "deadlock test", "training"};
static size_t most[OPERATIONS];

/* What the calls are lent, all lengths equal, and their answers; whether the lengths are lent. */
static uint16_t now[SLABS + 1], goal[SLABS + 1], lengths[SLABS + 1], method;
static uint16_t space[TOPJESKA_PLAN_SPACE(SLABS)], panel_space[TOPJESKA_PLAN_SPACE(SLABS)];
static int measured;
static size_t n, lifts_len;
static uint64_t number;
static topjeska_generator generator;
static topjeska_check_answer check_answer;
static topjeska_plan_answer plan_answer, panel_answer;
static topjeska_deadlock_answer deadlock_answer;
static topjeska_replay_answer replay_answer;
static topjeska_training_answer training_answer, draw_answer;

/* One operation, as a thread; training by both its functions, to now and to the goal. */
static void *call(void *operation) {
    const uint16_t options = TOPJESKA_LENGTHS;
    const size_t plan_len = TOPJESKA_PLAN_SPACE(SLABS), rows_len = TOPJESKA_DEADLOCK_ROOM(SLABS);
    switch (*(const int *)operation) {
    case CHECK:
        check_answer = measured ? topjeska_check_with(options, now, n, goal, n, lengths, n)
                                : topjeska_check(now, n, goal, n);
        break;
    case REPLAY:
        replay_answer =
            measured ? topjeska_replay_with(options, now, n, goal, n, lengths, n, space, lifts_len)
                     : topjeska_replay(now, n, goal, n, space, lifts_len);
        break;
    case PLAN:
        plan_answer = measured ? topjeska_plan_with(options, method, now, n, goal, n, lengths, n,
                                                    space, plan_len)
                               : topjeska_plan(method, now, n, goal, n, space, plan_len);
        break;
    case PANEL:
        panel_answer =
            measured ? topjeska_plan_with(options | TOPJESKA_PANEL, method, now, n, goal, n,
                                          lengths, n, panel_space, plan_len)
                     : topjeska_plan_panel(method, now, n, goal, n, panel_space, plan_len);
        break;
    case DEADLOCK:
        deadlock_answer = measured ? topjeska_deadlock_with(options, now, n, goal, n, lengths, n,
                                                            space, rows_len)
                                   : topjeska_deadlock(now, n, goal, n, space, rows_len);
        break;
    case TRAINING:
        training_answer = topjeska_training(n, number, now, TRAINED);
        draw_answer = topjeska_training_draw(&generator, n, goal, TRAINED);
        break;
    }
    return NULL;
}

/* Runs an operation on a painted stack, and keeps how much it used. */
static void measure(int operation) {
    static void *stack;
    pthread_attr_t attributes;
    pthread_t thread;
    if ((stack == NULL && posix_memalign(&stack, PAGE, LENT) != 0) ||
        memset(stack, PAINT, LENT) != stack || pthread_attr_init(&attributes) != 0 ||
        pthread_attr_setstack(&attributes, stack, LENT) != 0 ||
        pthread_create(&thread, &attributes, call, &operation) != 0 ||
        pthread_join(thread, NULL) != 0) {
        printf("there is no thread on a stack of its own\n");
        exit(2);
    }
    pthread_attr_destroy(&attributes);
    const unsigned char *bytes = stack;
    size_t unused = 0;
    while (unused < LENT && bytes[unused] == PAINT)
        unused++;
    if (LENT - unused > most[operation])
        most[operation] = LENT - unused;
}

/* Planning by both entries, in spaces that hold 0. They answer alike and leave their spaces alike,
 * but where the sheet is too large for the panel alone: then it refuses, and its space holds 0. */
static void plan_both(const char *name) {
    static const uint16_t zeros[TOPJESKA_PLAN_SPACE(SLABS)];
    const int alike = n <= FEW || n > SLABS;
    memset(space, 0, sizeof space);
    memset(panel_space, 0, sizeof panel_space);
    measure(PLAN);
    measure(PANEL);
    if (alike)
        plan_is(name, panel_answer, plan_answer.refusal, plan_answer.place, plan_answer.count,
                plan_answer.misplaced);
    else
        plan_is(name, panel_answer, TOPJESKA_REFUSAL_PANEL, 0, 0, 0);
    space_is(name, panel_space, alike ? space : zeros, TOPJESKA_PLAN_SPACE(SLABS));
}

/* So many numbers of a space are held: two rows of the deadlock test. */
enum { FRONT = 2 * TOPJESKA_DEADLOCK_WIDTH };

/* Every operation on the sheet that is there: the count of lifts by method 1 and by 2 and 3, all of
 * which arrive, the misplaced slabs, the deadlocked slabs, and how the space then begins. */
static void answered(const char *name, uint64_t put_down, uint64_t built, uint64_t misplaced,
                     uint64_t deadlocked, const uint16_t *front) {
    measure(CHECK);
    check_is(name, check_answer, 0, 0);
    for (method = TOPJESKA_METHOD_US; method <= TOPJESKA_METHOD_GN2; method++) {
        plan_both(name);
        plan_is(name, plan_answer, 0, 0, method == TOPJESKA_METHOD_US ? put_down : built,
                misplaced);
        lifts_len = 2 * plan_answer.count;
        measure(REPLAY);
        replay_is(name, replay_answer, 0, TOPJESKA_VERDICT_ARRIVES, 0);
    }
    measure(DEADLOCK);
    deadlock_is(name, deadlock_answer, 0, 0, deadlocked);
    space_is(name, space, front, FRONT);
}

/* Every operation on sheets refused. */
static void refused(const char *name, uint64_t refusal, uint64_t place) {
    method = TOPJESKA_METHOD_GN2;
    measure(CHECK);
    measure(REPLAY);
    plan_both(name);
    measure(DEADLOCK);
    check_is(name, check_answer, refusal, place);
    plan_is(name, plan_answer, refusal, place, 0, 0);
    deadlock_is(name, deadlock_answer, refusal, place, 0);
    replay_is(name, replay_answer, refusal, TOPJESKA_NO_VERDICT, place);
}

/* One pile that shall stand the other way up. Methods 2 and 3 lift each slab once, from the top. */
static void turned_over(void) {
    const uint16_t front[FRONT] = {n, 0, n - 1, n, n - 2, n - 1};
    for (uint16_t slab = 1; slab <= n; slab++) {
        now[slab - 1] = slab - 1;
        goal[slab - 1] = slab == n ? 0 : slab + 1;
    }
    answered("one pile turned over", 2 * (n - 1), n, n, 0, front);
}

/* Piles of two in a ring: each upper slab goes to the next pile, and all are in one deadlock. */
static void ring(void) {
    const uint16_t half = n / 2, front[FRONT] = {half + 1, 2, 2, half + 2, 3, 3};
    for (uint16_t foot = 1; foot <= half; foot++) {
        now[foot - 1] = goal[foot - 1] = 0;
        now[half + foot - 1] = foot;
        goal[half + foot - 1] = foot % half + 1;
    }
    answered("a ring", 2 * half, half + 1, half, half, front);
}

/* S5 of document 01 over and over: by method 1 six lifts each, by 2 and 3 five, four slabs
 * misplaced. The deadlock test shows the first deadlock, the row 1 2 0; behind it stands what it
 * leaves of the list of method 3, which begins 1→0, 2→0, 4→3. */
static void many_deadlocks(void) {
    enum { SMALL = 5 };
    const uint16_t s5_now[] = {2, 3, 0, 5, 0}, s5_goal[] = {5, 0, 0, 3, 2}, copies = n / SMALL;
    for (uint16_t slab = 0; slab < copies * SMALL; slab++) {
        uint16_t first = slab - slab % SMALL;
        now[slab] = s5_now[slab % SMALL] == 0 ? 0 : first + s5_now[slab % SMALL];
        goal[slab] = s5_goal[slab % SMALL] == 0 ? 0 : first + s5_goal[slab % SMALL];
    }
    const uint16_t front[FRONT] = {1, 2, 0, 0, 4, 3};
    answered("many deadlocks", 6 * copies, 5 * copies, 4 * copies, 1, front);
}

/* A goal of which nothing comes down to the ground. */
static void floating(void) {
    for (uint16_t slab = 1; slab <= n; slab++) {
        now[slab - 1] = 0;
        goal[slab - 1] = slab % n + 1;
    }
    refused("a floating goal", TOPJESKA_REFUSAL_GOAL_FLOATING, 1);
}

/* The last arrangement of the most slabs, where each slab rests on the highest other top there is,
 * and what the seed 1 draws; then a slab too many. */
static void training(void) {
    const uint16_t last[] = {16, 15, 14, 13, 12, 11, 10, 9, 7, 6, 5, 4, 3, 2, 1, 0};
    const uint16_t drawn[] = {0, 0, 0, 0, 0, 0, 0, 2, 5, 1, 0, 9, 10, 0, 6, 13};
    number = 1290434218669920;
    generator.seed = 1;
    for (n = TRAINED; n <= TRAINED + 1; n++) {
        uint64_t refusal = n == TRAINED ? 0 : TOPJESKA_REFUSAL_TRAINING_SIZE;
        measure(TRAINING);
        training_is("training", training_answer, refusal, 0);
        training_is("draw", draw_answer, refusal, 0);
        seed_is("seed", generator, 1082269761);
        space_is("last arrangement", now, last, TRAINED);
        space_is("arrangement drawn", goal, drawn, TRAINED);
    }
}

int main(void) {
    const size_t sizes[] = {SLABS, FEW};
    for (measured = 0; measured <= 1; measured++) {
        for (int k = 0; k < 2; k++) {
            n = sizes[k];
            turned_over();
            ring();
            many_deadlocks();
            floating();
        }
        n = SLABS + 1;
        refused("a slab too many", TOPJESKA_REFUSAL_TOO_MANY, 0);
    }
    training();
    for (int operation = 0; operation < OPERATIONS; operation++) {
        printf("stack of %s: %zu bytes\n", names[operation], most[operation]);
        count(most[operation] < TOPJESKA_STACK_BYTES, names[operation], most[operation],
              TOPJESKA_STACK_BYTES, 0, 0);
    }
    return ended();
}
