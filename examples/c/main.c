/* Sheets of document 01 through the library: their lifts, their deadlocks, a replay and a refusal;
 * then a sheet with lengths, what the panel takes, and a training sheet. */
#include <inttypes.h>
#include <stdio.h>
#include <stdlib.h>

#include "topjeska.h"

enum { MOST = 5 };

typedef struct {
    const char *name;
    size_t n;
    uint16_t now[MOST], goal[MOST];
} sheet;

static const sheet sheets[] = {
    {"S2", 2, {2, 0}, {0, 1}},
    {"S4", 4, {2, 0, 4, 0}, {4, 0, 2, 0}},
    {"S5", 5, {2, 3, 0, 5, 0}, {5, 0, 0, 3, 2}},
    {"grows", 4, {2, 0, 0, 0}, {2, 4, 0, 3}},
};

/* Prints groups of so many numbers, each with a space before it. */
static void print_groups(const uint16_t *numbers, uint64_t count, unsigned of,
                         const char *between) {
    if (count == 0)
        printf(" none");
    for (uint64_t i = 0; i < count * of; i++)
        printf("%s%u", i % of != 0 ? between : i == 0 ? " " : ", ", numbers[i]);
    printf("\n");
}

/* Prints lifts, which are pairs: slab, destination. */
static void print_lifts(const uint16_t *lifts, uint64_t count) {
    print_groups(lifts, count, 2, "->");
}

/* Ends the program where something is refused. */
static void accepted(uint64_t refusal, uint64_t place) {
    if (refusal != 0) {
        fprintf(stderr, "refused by question %" PRIu64 " at %" PRIu64 "\n", refusal, place);
        exit(1);
    }
}

/* Prints what the library says of a sheet. */
static void show(const sheet *s) {
    uint16_t lifts[TOPJESKA_PLAN_SPACE(MOST)], locked[TOPJESKA_DEADLOCK_ROOM(MOST)];
    topjeska_check_answer checked = topjeska_check(s->now, s->n, s->goal, s->n);
    accepted(checked.refusal, checked.place);
    topjeska_plan_answer plan = topjeska_plan(TOPJESKA_METHOD_GN1, s->now, s->n, s->goal, s->n,
                                              lifts, TOPJESKA_PLAN_SPACE(s->n));
    accepted(plan.refusal, plan.place);
    printf("%s lifts", s->name);
    print_lifts(lifts, plan.count);
    printf("%s misplaced %" PRIu64 "\n", s->name, plan.misplaced);
    topjeska_deadlock_answer deadlock =
        topjeska_deadlock(s->now, s->n, s->goal, s->n, locked, TOPJESKA_DEADLOCK_ROOM(s->n));
    accepted(deadlock.refusal, deadlock.place);
    printf("%s deadlock", s->name);
    print_groups(locked, deadlock.count, TOPJESKA_DEADLOCK_WIDTH, " ");
    topjeska_replay_answer replay =
        topjeska_replay(s->now, s->n, s->goal, s->n, lifts, 2 * plan.count);
    accepted(replay.refusal, replay.place);
    if (replay.verdict == TOPJESKA_VERDICT_ARRIVES)
        printf("%s arrives\n", s->name);
    else
        printf("%s does not arrive: verdict %" PRIu64 "\n", s->name, replay.verdict);
}

/* Prints what the library says of S4 with lengths, whose parts are given by their names: its list,
 * a lift onto a shorter slab, and the refusal where slab 4 is too short. */
static void show_lengths(const sheet *s4) {
    const uint16_t lengths[] = {250, 300, 200, 300}, shorter[] = {250, 300, 200, 200};
    const uint16_t onto_3[] = {1, 3};
    uint16_t lifts[TOPJESKA_PLAN_SPACE(4)];
    topjeska_sheet s = {
        .options = TOPJESKA_LENGTHS,
        .now = s4->now,
        .now_len = s4->n,
        .goal = s4->goal,
        .goal_len = s4->n,
        .lengths = lengths,
        .lengths_len = s4->n,
    };
    topjeska_plan_answer plan =
        topjeska_sheet_plan(s, TOPJESKA_METHOD_GN1, lifts, TOPJESKA_PLAN_SPACE(s4->n));
    accepted(plan.refusal, plan.place);
    printf("S4 with lengths lifts");
    print_lifts(lifts, plan.count);
    topjeska_replay_answer replay = topjeska_sheet_replay(s, onto_3, 2);
    accepted(replay.refusal, replay.place);
    if (replay.verdict == TOPJESKA_VERDICT_TOO_LONG)
        printf("S4 with lengths, 1->3: lift %" PRIu64 " is too long\n", replay.place);
    else
        printf("S4 with lengths, 1->3: verdict %" PRIu64 "\n", replay.verdict);
    s.lengths = shorter;
    topjeska_check_answer checked = topjeska_sheet_check(s);
    printf("S4 with a shorter slab 4: refused by question %" PRIu64 " at %" PRIu64 "\n",
           checked.refusal, checked.place);
}

/* Prints what the panel's entry says of a pile that shall stand the other way up: of the most slabs
 * that it takes, and of one more. */
static void show_panel(void) {
    enum { OVER = TOPJESKA_MOST_PANEL + 1 };
    static uint16_t now[OVER], goal[OVER], lifts[TOPJESKA_PLAN_SPACE(OVER)];
    for (uint16_t n = TOPJESKA_MOST_PANEL; n <= OVER; n++) {
        for (uint16_t slab = 1; slab <= n; slab++) {
            now[slab - 1] = slab - 1;
            goal[slab - 1] = slab == n ? 0 : slab + 1;
        }
        topjeska_plan_answer plan = topjeska_plan_panel(TOPJESKA_METHOD_GN1, now, n, goal, n, lifts,
                                                        TOPJESKA_PLAN_SPACE(n));
        if (plan.refusal == 0)
            printf("%u slabs by the panel: %" PRIu64 " lifts\n", n, plan.count);
        else
            printf("%u slabs by the panel: refused by question %" PRIu64 "\n", n, plan.refusal);
    }
}

/* Draws an arrangement of a training sheet, and prints it. */
static void draw(topjeska_generator *generator, const sheet *s, const char *which, uint16_t *out) {
    topjeska_training_answer drawn = topjeska_training_draw(generator, s->n, out, s->n);
    accepted(drawn.refusal, drawn.place);
    printf("%s %s", s->name, which);
    for (size_t i = 0; i < s->n; i++)
        printf(" %u", out[i]);
    printf("\n");
}

int main(void) {
    for (size_t i = 0; i < sizeof sheets / sizeof sheets[0]; i++)
        show(&sheets[i]);

    const sheet *s2 = &sheets[0];
    topjeska_replay_answer replay = topjeska_replay(s2->now, s2->n, s2->goal, s2->n, NULL, 0);
    accepted(replay.refusal, replay.place);
    if (replay.verdict == TOPJESKA_VERDICT_ELSEWHERE)
        printf("S2 without lifts: slab %" PRIu64 " differs\n", replay.place);
    else
        printf("S2 without lifts: verdict %" PRIu64 "\n", replay.verdict);

    const uint16_t bad[] = {2, 1, 5}, ground[] = {0, 0, 0};
    uint16_t space[TOPJESKA_PLAN_SPACE(3)];
    topjeska_plan_answer refused =
        topjeska_plan(TOPJESKA_METHOD_US, bad, 3, ground, 3, space, TOPJESKA_PLAN_SPACE(3));
    printf("2 1 5: refused by question %" PRIu64 " at %" PRIu64 "\n", refused.refusal, refused.place);

    show_lengths(&sheets[1]);
    show_panel();

    sheet trained = {"seed 7", MOST, {0}, {0}};
    topjeska_generator generator = {7};
    draw(&generator, &trained, "now", trained.now);
    draw(&generator, &trained, "goal", trained.goal);
    show(&trained);
    return 0;
}
