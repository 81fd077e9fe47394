/* Every function, every field and every constant that a function takes or answers by its name, on
 * sheets where two of them exchanged would show. The numbers are the documents', or counted by hand
 * from their rules. */
#include "expect.h"

/* "Now 2 1 5: number 4, place 3", and the same list as the goal, where the number is 7. */
static const uint16_t bad[] = {2, 1, 5}, ground[] = {0, 0, 0};
/* "Now 0 1 1: number 5, place 3", and "Now 1: number 6, place 1"; as goals 8 and 9. */
static const uint16_t shared[] = {0, 1, 1}, floating[] = {1};
/* S6 "reads 2", three lifts by method 2; slab 1 goes to the ground and back. */
static const uint16_t s6_now[] = {2, 3, 0}, s6_goal[] = {2, 0, 0}, s6_lifts[] = {1, 0, 2, 0, 1, 2};
/* "S4 reads 1 4 4, 3 2 2; S5 reads 1 2 0." */
enum { ROW = TOPJESKA_DEADLOCK_WIDTH };
static const uint16_t s4_now[] = {2, 0, 4, 0}, s4_goal[] = {4, 0, 2, 0};
static const uint16_t s4_rows[2 * ROW] = {1, 4, 4, 3, 2, 2};
static const uint16_t s5_now[] = {2, 3, 0, 5, 0}, s5_goal[] = {5, 0, 0, 3, 2};
static const uint16_t s5_row[ROW] = {1, 2, 0};
/* Slab 1 is above slab 2 now and in the goal, where 2 rests on 4 and 4 on 3. Of these 3 alone is in
 * position at the start, and 4 too when the yard stalls: its lift onto 3 is constructive. */
static const uint16_t built_now[] = {2, 5, 0, 0, 0}, built_goal[] = {2, 4, 0, 3, 0};
static const uint16_t built_row[ROW] = {1, 2, 4};
/* A sheet that method 3 lifts once more than method 2. */
static const uint16_t six_now[] = {3, 0, 4, 0, 2, 1}, six_goal[] = {2, 0, 1, 0, 4, 5};
/* "4,000 entries pass question 2, 4,001 do not." All on the ground. */
static const uint16_t many[TOPJESKA_MOST_SLABS + 1];
/* "19 for more than 600 by the panel's entry, directly after 2." All on the ground, and room for
 * the lifts of so many. */
static const uint16_t few[TOPJESKA_MOST_PANEL + 1];
static uint16_t room[TOPJESKA_PLAN_SPACE(TOPJESKA_MOST_PANEL + 1)];
enum { ROOM = sizeof room / sizeof room[0] };
/* Lengths of S6: those that fit; of a slab 1 that overhangs now and in the goal; of a slab 3 that
 * is too short for slab 2, which rests on it now alone. And of S4, with longer feet. */
static const uint16_t s6_long[] = {200, 250, 300}, s6_over[] = {300, 250, 300};
static const uint16_t s6_short[] = {200, 250, 200}, s4_long[] = {250, 300, 250, 300};

static void checks(void) {
    const size_t most = TOPJESKA_MOST_SLABS;
    check_is("check of a bad now", topjeska_check(bad, 3, ground, 3), TOPJESKA_REFUSAL_NOW_ENTRY,
             3);
    check_is("check of a bad goal", topjeska_check(ground, 3, bad, 3), TOPJESKA_REFUSAL_GOAL_ENTRY,
             3);
    check_is("check of a shared now", topjeska_check(shared, 3, ground, 3),
             TOPJESKA_REFUSAL_NOW_SHARED, 3);
    check_is("check of a shared goal", topjeska_check(ground, 3, shared, 3),
             TOPJESKA_REFUSAL_GOAL_SHARED, 3);
    check_is("check of a floating now", topjeska_check(floating, 1, ground, 1),
             TOPJESKA_REFUSAL_NOW_FLOATING, 1);
    check_is("check of a floating goal", topjeska_check(ground, 1, floating, 1),
             TOPJESKA_REFUSAL_GOAL_FLOATING, 1);
    check_is("check of a shorter goal", topjeska_check(bad, 3, ground, 2), TOPJESKA_REFUSAL_UNEQUAL,
             0);
    check_is("check of the most slabs", topjeska_check(many, most, many, most), 0, 0);
    check_is("check of one more", topjeska_check(many, most + 1, many, most + 1),
             TOPJESKA_REFUSAL_TOO_MANY, 0);
    check_is("check of S6", topjeska_check(s6_now, 3, s6_goal, 3), 0, 0);
}

static void plans(void) {
    uint16_t space[24] = {0};
    const uint16_t untouched[24] = {0};
    const uint16_t us = TOPJESKA_METHOD_US, gn1 = TOPJESKA_METHOD_GN1, gn2 = TOPJESKA_METHOD_GN2;
    plan_is("plan of a bad now", topjeska_plan(gn1, bad, 3, ground, 3, space, 12),
            TOPJESKA_REFUSAL_NOW_ENTRY, 3, 0, 0);
    plan_is("plan of a bad goal", topjeska_plan(gn1, ground, 3, bad, 3, space, 12),
            TOPJESKA_REFUSAL_GOAL_ENTRY, 3, 0, 0);
    plan_is("plan by method 4", topjeska_plan(4, ground, 3, bad, 3, space, 12),
            TOPJESKA_REFUSAL_METHOD, 0, 0, 0);
    plan_is("plan in a number less",
            topjeska_plan(gn1, s6_now, 3, s6_goal, 3, space, TOPJESKA_PLAN_SPACE(3) - 1),
            TOPJESKA_REFUSAL_SPACE, 0, 0, 0);
    space_is("space of refused plans", space, untouched, 24);
    plan_is("plan of S6",
            topjeska_plan(gn1, s6_now, 3, s6_goal, 3, space, TOPJESKA_PLAN_SPACE(3)), 0, 0, 3, 2);
    space_is("lifts of S6", space, s6_lifts, 6);
    space_is("space behind them", space + 6, untouched, 18);
    /* "method 1 takes four lifts", method 2 three. */
    plan_is("plan of S4 by 1", topjeska_plan(us, s4_now, 4, s4_goal, 4, space, 16), 0, 0, 4, 2);
    plan_is("plan of S4 by 2", topjeska_plan(gn1, s4_now, 4, s4_goal, 4, space, 16), 0, 0, 3, 2);
    plan_is("plan of six by 2", topjeska_plan(gn1, six_now, 6, six_goal, 6, space, 24), 0, 0, 6, 4);
    plan_is("plan of six by 3", topjeska_plan(gn2, six_now, 6, six_goal, 6, space, 24), 0, 0, 7, 4);
}

static void panels(void) {
    uint16_t space[12] = {0};
    const uint16_t untouched[12] = {0};
    const uint16_t gn1 = TOPJESKA_METHOD_GN1;
    const size_t most = TOPJESKA_MOST_PANEL, all = TOPJESKA_MOST_SLABS;
    plan_is("panel's plan of a bad now", topjeska_plan_panel(gn1, bad, 3, ground, 3, space, 12),
            TOPJESKA_REFUSAL_NOW_ENTRY, 3, 0, 0);
    plan_is("panel's plan of a bad goal", topjeska_plan_panel(gn1, ground, 3, bad, 3, space, 12),
            TOPJESKA_REFUSAL_GOAL_ENTRY, 3, 0, 0);
    plan_is("panel's plan in a number less",
            topjeska_plan_panel(gn1, s6_now, 3, s6_goal, 3, space, TOPJESKA_PLAN_SPACE(3) - 1),
            TOPJESKA_REFUSAL_SPACE, 0, 0, 0);
    space_is("space of the panel's refused plans", space, untouched, 12);
    plan_is("panel's plan of S6",
            topjeska_plan_panel(gn1, s6_now, 3, s6_goal, 3, space, TOPJESKA_PLAN_SPACE(3)), 0, 0, 3,
            2);
    space_is("panel's lifts of S6", space, s6_lifts, 6);
    space_is("space behind them", space + 6, untouched, 6);
    plan_is("panel's plan of its most slabs",
            topjeska_plan_panel(gn1, few, most, few, most, room, ROOM), 0, 0, 0, 0);
    plan_is("panel's plan of its most slabs and a shorter goal",
            topjeska_plan_panel(gn1, few, most, few, most - 1, room, ROOM),
            TOPJESKA_REFUSAL_UNEQUAL, 0, 0, 0);
    plan_is("panel's plan of one more",
            topjeska_plan_panel(gn1, few, most + 1, few, most + 1, room, ROOM),
            TOPJESKA_REFUSAL_PANEL, 0, 0, 0);
    plan_is("panel's plan of one more and a shorter goal",
            topjeska_plan_panel(gn1, few, most + 1, few, most, room, ROOM), TOPJESKA_REFUSAL_PANEL,
            0, 0, 0);
    plan_is("panel's plan of one more by method 4",
            topjeska_plan_panel(4, few, most + 1, few, most + 1, room, ROOM),
            TOPJESKA_REFUSAL_METHOD, 0, 0, 0);
    plan_is("panel's plan of the most slabs",
            topjeska_plan_panel(gn1, many, all, many, all, room, ROOM), TOPJESKA_REFUSAL_PANEL, 0,
            0, 0);
    plan_is("panel's plan of one more than these",
            topjeska_plan_panel(gn1, many, all + 1, many, all + 1, room, ROOM),
            TOPJESKA_REFUSAL_TOO_MANY, 0, 0, 0);
}

/* A space for the rows of five slabs, and what it holds then: numbers that no row has. */
enum { ROWS = TOPJESKA_DEADLOCK_ROOM(5) };
static uint16_t rows[ROWS], no_rows[ROWS];

static void lend_rows(void) {
    memset(rows, 0xFF, sizeof rows);
    memset(no_rows, 0xFF, sizeof no_rows);
}

/* What the deadlock test writes of five slabs: one row. */
static void row_is(const char *name, const uint16_t *now, const uint16_t *goal,
                   const uint16_t *row) {
    lend_rows();
    deadlock_is(name, topjeska_deadlock(now, 5, goal, 5, rows, ROWS), 0, 0, 1);
    space_is(name, rows, row, ROW);
    space_is(name, rows + ROW, no_rows, ROWS - ROW);
}

static void deadlocks(void) {
    lend_rows();
    deadlock_is("deadlock of a bad now", topjeska_deadlock(bad, 3, ground, 3, rows, 9),
                TOPJESKA_REFUSAL_NOW_ENTRY, 3, 0);
    deadlock_is("deadlock of a bad goal", topjeska_deadlock(ground, 3, bad, 3, rows, 9),
                TOPJESKA_REFUSAL_GOAL_ENTRY, 3, 0);
    deadlock_is("deadlock in a number less",
                topjeska_deadlock(s4_now, 4, s4_goal, 4, rows, TOPJESKA_DEADLOCK_ROOM(4) - 1),
                TOPJESKA_REFUSAL_SPACE, 0, 0);
    deadlock_is("deadlock in two numbers a slab",
                topjeska_deadlock(s4_now, 4, s4_goal, 4, rows, 2 * 4), TOPJESKA_REFUSAL_SPACE, 0,
                0);
    space_is("space of refused tests", rows, no_rows, ROWS);
    deadlock_is("deadlock of S4",
                topjeska_deadlock(s4_now, 4, s4_goal, 4, rows, TOPJESKA_DEADLOCK_ROOM(4)), 0, 0,
                2);
    space_is("rows of S4", rows, s4_rows, 2 * ROW);
    space_is("space behind them", rows + 2 * ROW, no_rows, ROWS - 2 * ROW);
    row_is("deadlock of S5", s5_now, s5_goal, s5_row);
    row_is("deadlock behind a constructive lift", built_now, built_goal, built_row);
}

static void replays(void) {
    /* After 1→0 slab 2 is clear: it goes onto itself, or to 3, where it rests. Slab 3 is covered. */
    const uint16_t itself[] = {1, 0, 2, 2}, rests[] = {1, 0, 2, 3}, covered[] = {3, 0};
    /* Two lifts of S6, and then one to no slab. */
    const uint16_t outside[] = {1, 0, 2, 0, 1, 4};
    replay_is("replay of a bad now", topjeska_replay(bad, 3, ground, 3, s6_lifts, 6),
              TOPJESKA_REFUSAL_NOW_ENTRY, TOPJESKA_NO_VERDICT, 3);
    replay_is("replay of a bad goal", topjeska_replay(ground, 3, bad, 3, s6_lifts, 6),
              TOPJESKA_REFUSAL_GOAL_ENTRY, TOPJESKA_NO_VERDICT, 3);
    replay_is("replay of an odd list", topjeska_replay(s6_now, 3, s6_goal, 3, s6_lifts, 5),
              TOPJESKA_REFUSAL_ODD, TOPJESKA_NO_VERDICT, 0);
    replay_is("replay of S6", topjeska_replay(s6_now, 3, s6_goal, 3, s6_lifts, 6), 0,
              TOPJESKA_VERDICT_ARRIVES, 0);
    replay_is("replay onto itself", topjeska_replay(s6_now, 3, s6_goal, 3, itself, 4), 0,
              TOPJESKA_VERDICT_TAKEN, 2);
    replay_is("replay to its support", topjeska_replay(s6_now, 3, s6_goal, 3, rests, 4), 0,
              TOPJESKA_VERDICT_IDLE, 2);
    replay_is("replay from beneath", topjeska_replay(s6_now, 3, s6_goal, 3, covered, 2), 0,
              TOPJESKA_VERDICT_COVERED, 1);
    replay_is("replay outside", topjeska_replay(s6_now, 3, s6_goal, 3, outside, 6), 0,
              TOPJESKA_VERDICT_UNKNOWN, 3);
    replay_is("replay cut short", topjeska_replay(s6_now, 3, s6_goal, 3, s6_lifts, 4), 0,
              TOPJESKA_VERDICT_ELSEWHERE, 1);
    /* As many numbers as slabs, so that no length tells the three lists apart. */
    replay_is("replay of 4 numbers", topjeska_replay(s4_now, 4, s4_goal, 4, s6_lifts, 4), 0,
              TOPJESKA_VERDICT_IDLE, 2);
}

/* Options with the bit of lengths alone, with every bit, with every other bit, and with none. */
enum { ALONE = TOPJESKA_LENGTHS, EVERY = 0xFFFF, OTHERS = EVERY & ~TOPJESKA_LENGTHS, NONE = 0 };

static void checks_with(void) {
    check_is("check of S6 with lengths",
             topjeska_check_with(ALONE, s6_now, 3, s6_goal, 3, s6_long, 3), 0, 0);
    check_is("check of a length less",
             topjeska_check_with(ALONE, s6_now, 3, s6_goal, 3, s6_long, 2),
             TOPJESKA_REFUSAL_LENGTHS_COUNT, 0);
    check_is("check of an overhang now",
             topjeska_check_with(ALONE, s6_now, 3, s6_goal, 3, s6_short, 3),
             TOPJESKA_REFUSAL_NOW_OVERHANG, 2);
    check_is("check of an overhang in the goal",
             topjeska_check_with(ALONE, s6_goal, 3, s6_now, 3, s6_short, 3),
             TOPJESKA_REFUSAL_GOAL_OVERHANG, 2);
    check_is("check of both overhangs",
             topjeska_check_with(EVERY, s6_now, 3, s6_goal, 3, s6_over, 3),
             TOPJESKA_REFUSAL_NOW_OVERHANG, 1);
    check_is("check of a floating goal and no lengths",
             topjeska_check_with(ALONE, ground, 1, floating, 1, NULL, 0),
             TOPJESKA_REFUSAL_GOAL_FLOATING, 1);
    check_is("check without lengths",
             topjeska_check_with(NONE, s6_now, 3, s6_goal, 3, s6_short, 2), 0, 0);
    check_is("check with other options",
             topjeska_check_with(OTHERS, s6_now, 3, s6_goal, 3, s6_short, 3), 0, 0);
}

static void plans_with(void) {
    uint16_t space[16] = {0};
    const uint16_t untouched[16] = {0}, lifts[] = {1, 0, 3, 2, 1, 4};
    const uint16_t us = TOPJESKA_METHOD_US, gn1 = TOPJESKA_METHOD_GN1;
    plan_is("plan of an overhang",
            topjeska_plan_with(ALONE, gn1, s6_now, 3, s6_goal, 3, s6_short, 3, space, 11),
            TOPJESKA_REFUSAL_NOW_OVERHANG, 2, 0, 0);
    plan_is("plan in a number less, with lengths",
            topjeska_plan_with(ALONE, gn1, s4_now, 4, s4_goal, 4, s4_long, 4, space, 15),
            TOPJESKA_REFUSAL_SPACE, 0, 0, 0);
    space_is("space of refused plans with lengths", space, untouched, 16);
    plan_is("plan of S4 by 2 with lengths",
            topjeska_plan_with(ALONE, gn1, s4_now, 4, s4_goal, 4, s4_long, 4, space, 16), 0, 0, 3,
            2);
    space_is("lifts of S4 with lengths", space, lifts, 6);
    space_is("space behind them", space + 6, untouched, 10);
    plan_is("plan of S4 by 1 with lengths",
            topjeska_plan_with(EVERY, us, s4_now, 4, s4_goal, 4, s4_long, 4, space, 16), 0, 0, 4,
            2);
    plan_is("plan with other options",
            topjeska_plan_with(OTHERS, us, s6_now, 3, s6_goal, 3, s6_short, 3, space, 12), 0, 0, 3,
            2);
}

static void deadlocks_with(void) {
    lend_rows();
    deadlock_is("deadlock of an overhang",
                topjeska_deadlock_with(ALONE, s6_goal, 3, s6_now, 3, s6_short, 3, rows, 8),
                TOPJESKA_REFUSAL_GOAL_OVERHANG, 2, 0);
    deadlock_is("deadlock in a number less, with lengths",
                topjeska_deadlock_with(ALONE, s4_now, 4, s4_goal, 4, s4_long, 4, rows, 11),
                TOPJESKA_REFUSAL_SPACE, 0, 0);
    space_is("space of refused tests with lengths", rows, no_rows, ROWS);
    deadlock_is("deadlock of S4 with lengths",
                topjeska_deadlock_with(ALONE, s4_now, 4, s4_goal, 4, s4_long, 4, rows, 12), 0, 0,
                2);
    space_is("rows of S4 with lengths", rows, s4_rows, 2 * ROW);
    space_is("space behind them", rows + 2 * ROW, no_rows, ROWS - 2 * ROW);
    deadlock_is("deadlock with other options",
                topjeska_deadlock_with(OTHERS, s6_now, 3, s6_goal, 3, s6_short, 3, rows, 9), 0, 0,
                1);
}

/* After 1→0 slab 2 goes onto slab 1, which is shorter; or slab 3 does, from under slab 2. */
static const uint16_t over[] = {1, 0, 2, 1}, under[] = {1, 0, 3, 1};

static void replays_with(void) {
    /* With slab 3 on slab 1, slab 1 is taken before slab 2 is too long for it. */
    const uint16_t taken[] = {3, 1, 2, 1};
    replay_is("replay of an overhang",
              topjeska_replay_with(ALONE, s6_now, 3, s6_goal, 3, s6_short, 3, s6_lifts, 5),
              TOPJESKA_REFUSAL_NOW_OVERHANG, TOPJESKA_NO_VERDICT, 2);
    replay_is("replay of an odd list with lengths",
              topjeska_replay_with(ALONE, s6_now, 3, s6_goal, 3, s6_long, 3, s6_lifts, 5),
              TOPJESKA_REFUSAL_ODD, TOPJESKA_NO_VERDICT, 0);
    replay_is("replay of S6 with lengths",
              topjeska_replay_with(ALONE, s6_now, 3, s6_goal, 3, s6_long, 3, s6_lifts, 6), 0,
              TOPJESKA_VERDICT_ARRIVES, 0);
    replay_is("replay onto a shorter slab",
              topjeska_replay_with(EVERY, s6_now, 3, s6_goal, 3, s6_long, 3, over, 4), 0,
              TOPJESKA_VERDICT_TOO_LONG, 2);
    replay_is("replay from beneath onto a shorter slab",
              topjeska_replay_with(ALONE, s6_now, 3, s6_goal, 3, s6_long, 3, under, 4), 0,
              TOPJESKA_VERDICT_COVERED, 2);
    replay_is("replay onto a shorter slab that is taken",
              topjeska_replay_with(ALONE, ground, 3, ground, 3, s6_short, 3, taken, 4), 0,
              TOPJESKA_VERDICT_TAKEN, 2);
    replay_is("replay onto a shorter slab without lengths",
              topjeska_replay_with(NONE, s6_now, 3, s6_goal, 3, s6_long, 3, over, 4), 0,
              TOPJESKA_VERDICT_ELSEWHERE, 1);
    replay_is("replay with other options",
              topjeska_replay_with(OTHERS, s6_now, 3, s6_goal, 3, s6_short, 3, s6_lifts, 6), 0,
              TOPJESKA_VERDICT_ARRIVES, 0);
}

/* Options with the bit of the panel alone, with that of lengths too, and with all but these two. */
enum { PANEL = TOPJESKA_PANEL, BOTH = TOPJESKA_LENGTHS | PANEL, UNNAMED = EVERY & ~BOTH };

/* A slab too many for the panel, by its option: planning alone looks at it. Lengths are asked
 * later; these are all 0. */
static void panels_with(void) {
    const uint16_t gn1 = TOPJESKA_METHOD_GN1;
    const size_t most = TOPJESKA_MOST_PANEL, n = most + 1;
    plan_is("plan of the panel's most slabs",
            topjeska_plan_with(PANEL, gn1, few, most, few, most, NULL, 0, room, ROOM), 0, 0, 0, 0);
    plan_is("plan of the panel's most slabs with lengths",
            topjeska_plan_with(BOTH, gn1, few, most, few, most, few, most, room, ROOM), 0, 0, 0, 0);
    plan_is("plan of the panel's most slabs and no lengths",
            topjeska_plan_with(BOTH, gn1, few, most, few, most, NULL, 0, room, ROOM),
            TOPJESKA_REFUSAL_LENGTHS_COUNT, 0, 0, 0);
    plan_is("plan of one more", topjeska_plan_with(PANEL, gn1, few, n, few, n, NULL, 0, room, ROOM),
            TOPJESKA_REFUSAL_PANEL, 0, 0, 0);
    plan_is("plan of one more with lengths",
            topjeska_plan_with(BOTH, gn1, few, n, few, n, few, n, room, ROOM),
            TOPJESKA_REFUSAL_PANEL, 0, 0, 0);
    plan_is("plan of one more and no lengths",
            topjeska_plan_with(EVERY, gn1, few, n, few, n, NULL, 0, room, ROOM),
            TOPJESKA_REFUSAL_PANEL, 0, 0, 0);
    plan_is("plan of one more with lengths alone",
            topjeska_plan_with(ALONE, gn1, few, n, few, n, few, n, room, ROOM), 0, 0, 0, 0);
    plan_is("plan of one more with options unnamed",
            topjeska_plan_with(UNNAMED, gn1, few, n, few, n, NULL, 0, room, ROOM), 0, 0, 0, 0);
    check_is("check of one more", topjeska_check_with(BOTH, few, n, few, n, few, n), 0, 0);
    deadlock_is("deadlock of one more",
                topjeska_deadlock_with(BOTH, few, n, few, n, few, n, room, ROOM), 0, 0, 0);
    replay_is("replay of one more", topjeska_replay_with(BOTH, few, n, few, n, few, n, NULL, 0), 0,
              TOPJESKA_VERDICT_ARRIVES, 0);
}

/* All that take a sheet by the names of its parts refuse one, with place 0. */
static void sheet_is_refused(const char *name, topjeska_sheet sheet, uint64_t refusal) {
    uint16_t space[16] = {0};
    check_is(name, topjeska_sheet_check(sheet), refusal, 0);
    plan_is(name, topjeska_sheet_plan(sheet, TOPJESKA_METHOD_GN1, space, 16), refusal, 0, 0, 0);
    deadlock_is(name, topjeska_sheet_deadlock(sheet, space, 16), refusal, 0, 0);
    replay_is(name, topjeska_sheet_replay(sheet, over, 4), refusal, TOPJESKA_NO_VERDICT, 0);
}

/* Sheets by the names of their parts: S6 with a slab that is too short, S6 without lengths, S4. Two
 * on which each count of entries is told from the others, the first also the options. And the
 * panel's, S4 and one of a slab too many. */
static void sheets(void) {
    uint16_t space[16] = {0};
    const uint16_t lifts[] = {1, 0, 3, 2, 1, 4};
    topjeska_sheet s6 = {.now = s6_now, .now_len = 3, .goal = s6_goal, .goal_len = 3};
    const topjeska_sheet s4 = {.options = TOPJESKA_LENGTHS,
                               .now = s4_now,
                               .now_len = 4,
                               .goal = s4_goal,
                               .goal_len = 4,
                               .lengths = s4_long,
                               .lengths_len = 4};
    topjeska_sheet fewer = s4, at_panel = s4;
    const topjeska_sheet more = {
        .now = many, .now_len = TOPJESKA_MOST_SLABS + 1, .goal = many, .goal_len = 4};
    check_is("sheet S6", topjeska_sheet_check(s6), 0, 0);
    replay_is("replay of sheet S6", topjeska_sheet_replay(s6, over, 4), 0,
              TOPJESKA_VERDICT_ELSEWHERE, 1);
    s6.options = TOPJESKA_LENGTHS;
    check_is("sheet S6 and no lengths", topjeska_sheet_check(s6), TOPJESKA_REFUSAL_LENGTHS_COUNT,
             0);
    s6.lengths = s6_short;
    s6.lengths_len = 3;
    check_is("sheet S6 with an overhang", topjeska_sheet_check(s6), TOPJESKA_REFUSAL_NOW_OVERHANG,
             2);
    s6.lengths = s6_long;
    replay_is("replay of sheet S6 onto a shorter slab", topjeska_sheet_replay(s6, over, 4), 0,
              TOPJESKA_VERDICT_TOO_LONG, 2);
    replay_is("replay of sheet S6 with lengths", topjeska_sheet_replay(s6, s6_lifts, 6), 0,
              TOPJESKA_VERDICT_ARRIVES, 0);
    plan_is("plan of sheet S4", topjeska_sheet_plan(s4, TOPJESKA_METHOD_GN1, space, 16), 0, 0, 3,
            2);
    space_is("lifts of sheet S4", space, lifts, 6);
    plan_is("plan of sheet S4 in a number less",
            topjeska_sheet_plan(s4, TOPJESKA_METHOD_GN1, space, 15), TOPJESKA_REFUSAL_SPACE, 0, 0,
            0);
    lend_rows();
    deadlock_is("deadlock of sheet S4", topjeska_sheet_deadlock(s4, rows, 12), 0, 0, 2);
    space_is("rows of sheet S4", rows, s4_rows, 2 * ROW);
    deadlock_is("deadlock of sheet S4 in a number less", topjeska_sheet_deadlock(s4, rows, 11),
                TOPJESKA_REFUSAL_SPACE, 0, 0);
    fewer.lengths_len = 3;
    sheet_is_refused("sheet S4 with a length less", fewer, TOPJESKA_REFUSAL_LENGTHS_COUNT);
    sheet_is_refused("sheet of too many slabs", more, TOPJESKA_REFUSAL_TOO_MANY);
    at_panel.options = TOPJESKA_LENGTHS | TOPJESKA_PANEL;
    plan_is("panel's plan of sheet S4",
            topjeska_sheet_plan(at_panel, TOPJESKA_METHOD_GN1, space, 16), 0, 0, 3, 2);
    space_is("panel's lifts of sheet S4", space, lifts, 6);
    at_panel.now = at_panel.goal = at_panel.lengths = few;
    at_panel.now_len = at_panel.goal_len = at_panel.lengths_len = TOPJESKA_MOST_PANEL + 1;
    plan_is("panel's plan of a sheet of one more",
            topjeska_sheet_plan(at_panel, TOPJESKA_METHOD_GN1, room, ROOM), TOPJESKA_REFUSAL_PANEL,
            0, 0, 0);
    check_is("check of that sheet", topjeska_sheet_check(at_panel), 0, 0);
}

/* A list lent for an arrangement, and what it holds then: numbers that no arrangement has. */
enum { LENT = TOPJESKA_MOST_TRAINED + 4, HELD = 0xFFFF };
static uint16_t out[LENT], held[LENT];

static void lend(void) {
    memset(out, 0xFF, sizeof out);
    memset(held, 0xFF, sizeof held);
}

static void trainings(void) {
    /* Of the 13 arrangements of three slabs the last: 1 on the highest other top, 3; 2 on 1. */
    const uint16_t last[] = {3, 1, 0, HELD};
    const size_t most = TOPJESKA_MOST_TRAINED;
    lend();
    training_is("training of a slab too many", topjeska_training(most + 1, 0, out, LENT),
                TOPJESKA_REFUSAL_TRAINING_SIZE, 0);
    training_is("training beyond the last", topjeska_training(3, 13, out, 2),
                TOPJESKA_REFUSAL_TRAINING_NUMBER, 0);
    training_is("training in a number less", topjeska_training(3, 12, out, 2),
                TOPJESKA_REFUSAL_SPACE, 0);
    space_is("list of refused training", out, held, LENT);
    training_is("training of 3 slabs", topjeska_training(3, 12, out, 4), 0, 0);
    space_is("the last arrangement", out, last, 4);
    training_is("training of the most slabs", topjeska_training(most, 0, out, most), 0, 0);
    space_is("the first arrangement", out, many, most);
    space_is("the list behind it", out + most, held, LENT - most);
}

static void draws(void) {
    /* 1 by the shifts: 8193, 8257, 1082269761. By 73 that leaves 12: below 34 and 13, so slabs 1 and
     * 2 are grounded; not below 4, and 8 by 3 is 2, so 3 goes on the last of 1, 2 and 4; then 1 is
     * left beyond 1 way, so 4 goes on the last of 1 and 2. */
    const uint16_t drawn[] = {0, 0, 4, 2, HELD};
    topjeska_generator generator = {.seed = 1}, without = {.seed = 0};
    lend();
    training_is("draw of a slab too many",
                topjeska_training_draw(&generator, TOPJESKA_MOST_TRAINED + 1, out, LENT),
                TOPJESKA_REFUSAL_TRAINING_SIZE, 0);
    training_is("draw without a seed", topjeska_training_draw(&without, 4, out, 3),
                TOPJESKA_REFUSAL_TRAINING_NUMBER, 0);
    training_is("draw in a number less", topjeska_training_draw(&generator, 4, out, 3),
                TOPJESKA_REFUSAL_SPACE, 0);
    space_is("list of refused draws", out, held, LENT);
    seed_is("seed of refused draws", generator, 1);
    seed_is("seed of a refused generator", without, 0);
    training_is("draw of 4 slabs", topjeska_training_draw(&generator, 4, out, 5), 0, 0);
    seed_is("the next seed", generator, 1082269761);
    space_is("the arrangement drawn", out, drawn, 5);
}

int main(void) {
    checks();
    plans();
    panels();
    deadlocks();
    replays();
    checks_with();
    plans_with();
    deadlocks_with();
    replays_with();
    panels_with();
    sheets();
    trainings();
    draws();
    return ended();
}
