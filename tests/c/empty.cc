// Empty vectors of C++ lent to every operation: what their data() is, is left to the library of C++.
#include <vector>

#include "expect.h"

int main() {
    std::vector<uint16_t> now, goal, space, lifts, lengths;
    check_is("check", topjeska_check(now.data(), now.size(), goal.data(), goal.size()), 0, 0);
    for (uint16_t method = 1; method <= 3; method++)
        plan_is("plan",
                topjeska_plan(method, now.data(), now.size(), goal.data(), goal.size(), space.data(),
                              space.size()),
                0, 0, 0, 0);
    plan_is("panel's plan",
            topjeska_plan_panel(2, now.data(), now.size(), goal.data(), goal.size(), space.data(),
                                space.size()),
            0, 0, 0, 0);
    deadlock_is("deadlock",
                topjeska_deadlock(now.data(), now.size(), goal.data(), goal.size(), space.data(),
                                  space.size()),
                0, 0, 0);
    replay_is("replay",
              topjeska_replay(now.data(), now.size(), goal.data(), goal.size(), lifts.data(),
                              lifts.size()),
              0, 0, 0);
    topjeska_generator generator = {1};
    training_is("training", topjeska_training(0, 0, space.data(), space.size()), 0, 0);
    training_is("draw", topjeska_training_draw(&generator, 0, space.data(), space.size()), 0, 0);
    seed_is("its seed", generator, 1082269761);
    training_is("training without a list", topjeska_training(1, 0, space.data(), space.size()), 10,
                0);

    topjeska_sheet sheet = {};
    for (uint16_t options = 0; options <= (TOPJESKA_LENGTHS | TOPJESKA_PANEL); options++) {
        sheet.options = options;
        sheet.lengths = lengths.data();
        check_is("check of a sheet", topjeska_sheet_check(sheet), 0, 0);
        plan_is("plan of a sheet", topjeska_sheet_plan(sheet, 2, space.data(), space.size()), 0, 0,
                0, 0);
        deadlock_is("deadlock of a sheet",
                    topjeska_sheet_deadlock(sheet, space.data(), space.size()), 0, 0, 0);
        replay_is("replay of a sheet", topjeska_sheet_replay(sheet, lifts.data(), lifts.size()), 0,
                  0, 0);
    }

    goal.push_back(0);
    check_is("check of unequal lists",
             topjeska_check(now.data(), now.size(), goal.data(), goal.size()), 3, 0);
    now = {0};
    plan_is("plan without space",
            topjeska_plan(2, now.data(), now.size(), goal.data(), goal.size(), space.data(),
                          space.size()),
            10, 0, 0, 0);
    replay_is("replay without lifts",
              topjeska_replay(now.data(), now.size(), goal.data(), goal.size(), lifts.data(),
                              lifts.size()),
              0, 0, 0);
    sheet.now = now.data();
    sheet.goal = goal.data();
    sheet.now_len = sheet.goal_len = 1;
    check_is("check of a sheet without its lengths", topjeska_sheet_check(sheet), 16, 0);
    space = {7, 7, 7, 7};
    const uint16_t held[] = {7, 7, 7, 7};
    plan_is("plan of a slab in position",
            topjeska_plan(3, now.data(), now.size(), goal.data(), goal.size(), space.data(),
                          space.size()),
            0, 0, 0, 0);
    space_is("its space", space.data(), held, 4);
    return ended();
}
