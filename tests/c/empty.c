/* NULL lent wherever a length is 0: each list of S2 (document 01: now 2 0, goal 0 1) in turn empty
 * or whole, its lengths too, in every combination, by every operation on sheets, and the list of a
 * training sheet. The answers are those of the documents. */
#include "expect.h"

static const uint16_t now[] = {2, 0}, goal[] = {0, 1}, lifts[] = {1, 0, 2, 1};
static const uint16_t lengths[] = {250, 250};
static const uint16_t held[] = {9, 9, 9, 9, 9, 9, 9, 9}, planned[] = {1, 0, 2, 1, 9, 9, 9, 9};

/* A list, or NULL. */
static const uint16_t *list(const uint16_t *numbers, size_t len) {
    return len == 0 ? NULL : numbers;
}

/* Whether a call is by the function that takes a sheet, and that sheet's options and how many
 * lengths are lent; the function without takes neither, and may plan by the panel's entry. */
static int whole, panel;
static uint16_t options;
static size_t k;

static topjeska_sheet sheet(size_t n, size_t m) {
    const topjeska_sheet made = {options, list(now, n), n, list(goal, m), m, list(lengths, k), k};
    return made;
}

/* The first question that gets a "no" from the lists and a space of some numbers: 3, 16, 10 or
 * none. */
static uint64_t refused(size_t n, size_t m, size_t len, size_t needed) {
    int miscounted = whole && (options & TOPJESKA_LENGTHS) != 0 && k != n;
    return n != m ? 3 : miscounted ? 16 : len < needed ? 10 : 0;
}

static void checks(size_t n, size_t m) {
    topjeska_sheet s = sheet(n, m);
    topjeska_check_answer got =
        whole ? topjeska_sheet_check(s) : topjeska_check(s.now, n, s.goal, m);
    check_is("check", got, refused(n, m, 0, 0), 0);
}

static void plans(uint16_t method, size_t n, size_t m, size_t len) {
    uint16_t space[8], *lent = len == 0 ? NULL : space;
    memcpy(space, held, sizeof held);
    topjeska_sheet s = sheet(n, m);
    topjeska_plan_answer got =
        whole   ? topjeska_sheet_plan(s, method, lent, len)
        : panel ? topjeska_plan_panel(method, s.now, n, s.goal, m, lent, len)
                : topjeska_plan(method, s.now, n, s.goal, m, lent, len);
    uint64_t known = 1 <= method && method <= 3;
    uint64_t refusal = known ? refused(n, m, len, 4 * n) : 1;
    uint64_t two = refusal == 0 && n == 2 ? 2 : 0;
    plan_is("plan", got, refusal, 0, two, two);
    space_is("space of plan", space, two == 0 ? held : planned, 8);
}

static void deadlocks(size_t n, size_t m, size_t len) {
    uint16_t space[8], *lent = len == 0 ? NULL : space;
    memcpy(space, held, sizeof held);
    topjeska_sheet s = sheet(n, m);
    topjeska_deadlock_answer got = whole ? topjeska_sheet_deadlock(s, lent, len)
                                         : topjeska_deadlock(s.now, n, s.goal, m, lent, len);
    deadlock_is("deadlock", got, refused(n, m, len, TOPJESKA_DEADLOCK_ROOM(n)), 0, 0);
    space_is("space of deadlock", space, held, 8);
}

/* No lifts leave slab 1 elsewhere; the two lifts arrive; without slabs the first is bad. */
static void replays(size_t n, size_t m, size_t len) {
    topjeska_sheet s = sheet(n, m);
    topjeska_replay_answer got = whole
                                     ? topjeska_sheet_replay(s, list(lifts, len), len)
                                     : topjeska_replay(s.now, n, s.goal, m, list(lifts, len), len);
    uint64_t refusal = refused(n, m, 0, 0);
    if (refusal != 0)
        replay_is("replay of refused lists", got, refusal, TOPJESKA_NO_VERDICT, 0);
    else if (n == 0 && len == 0)
        replay_is("replay of nothing", got, 0, 0, 0);
    else if (n == 0)
        replay_is("replay without slabs", got, 0, 1, 1);
    else if (len == 0)
        replay_is("replay without lifts", got, 0, 5, 1);
    else
        replay_is("replay", got, 0, 0, 0);
}

/* No slab has one arrangement, number 0, and needs no list. */
static void trainings(void) {
    training_is("training of no slab", topjeska_training(0, 0, NULL, 0), 0, 0);
    training_is("training beyond its number", topjeska_training(0, 1, NULL, 0), 15, 0);
    training_is("training without a list", topjeska_training(1, 0, NULL, 0), 10, 0);
    training_is("training without a list", topjeska_training(16, 1, NULL, 0), 10, 0);
    training_is("training of too many", topjeska_training(17, 0, NULL, 0), 14, 0);
    training_is("training of the most", topjeska_training(SIZE_MAX, UINT64_MAX, NULL, 0), 14, 0);
}

/* A draw without a list, and the seed after it. */
static void draws(size_t n, uint64_t seed, uint64_t refusal, uint64_t after) {
    topjeska_generator generator = {seed};
    training_is("draw", topjeska_training_draw(&generator, n, NULL, 0), refusal, 0);
    seed_is("seed after a draw", generator, after);
}

/* Every operation on lists empty or whole. */
static void every_list(void) {
    for (size_t n = 0; n <= 2; n += 2)
        for (size_t m = 0; m <= 2; m += 2) {
            checks(n, m);
            for (size_t len = 0; len <= 8; len += 8) {
                for (uint16_t method = 0; method <= 4; method++)
                    plans(method, n, m, len);
                deadlocks(n, m, len);
                replays(n, m, len / 2);
            }
        }
}

int main(void) {
    trainings();
    draws(0, 1, 0, 1082269761);
    draws(0, 0, 15, 0);
    draws(1, 0, 15, 0);
    draws(1, 1, 10, 1);
    draws(17, 0, 14, 0);
    draws(SIZE_MAX, 1, 14, 1);
    for (panel = 0; panel <= 1; panel++)
        every_list();
    whole = 1;
    for (options = 0; options <= (TOPJESKA_LENGTHS | TOPJESKA_PANEL); options++)
        for (k = 0; k <= 2; k += 2)
            every_list();

    /* A bad sheet is refused whatever the space or the lifts; an odd list, also without slabs. */
    const uint16_t itself[] = {1}, ground[] = {0};
    plan_is("plan of a bad sheet", topjeska_plan(1, itself, 1, ground, 1, NULL, 0), 6, 1, 0, 0);
    deadlock_is("deadlock of a bad goal", topjeska_deadlock(ground, 1, itself, 1, NULL, 0), 9, 1, 0);
    replay_is("replay of a bad sheet", topjeska_replay(itself, 1, ground, 1, NULL, 0), 6,
              TOPJESKA_NO_VERDICT, 1);
    replay_is("replay of an odd list", topjeska_replay(NULL, 0, NULL, 0, ground, 1), 11,
              TOPJESKA_NO_VERDICT, 0);
    return ended();
}
