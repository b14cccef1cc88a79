/* Holds the header to the library: every function through it, on good and refused answers, with the five
 * parts of each answer; every field of the images by its name and its bytes; every number in words. */
#include <stdio.h>
#include <string.h>

#include "parchbeetle.h"

enum { PLAN = PARCHBEETLE_PLAN_IMAGE, STATE = PARCHBEETLE_STATE_IMAGE };

static int checks = 0, faults = 0;

static void expect(const char *what, int holds) {
    checks++;
    if (!holds) {
        printf("header: %s\n", what);
        faults++;
    }
}

/* The five parts of an answer, by the header's macros; most have slice 0. */
static void answers_from(const char *what, uint64_t answer, unsigned number, unsigned place, unsigned count, uint32_t excess,
                         unsigned slice) {
    expect(what, PARCHBEETLE_NUMBER(answer) == number && PARCHBEETLE_PLACE(answer) == place &&
                     PARCHBEETLE_COUNT(answer) == count && PARCHBEETLE_EXCESS(answer) == excess &&
                     PARCHBEETLE_SLICE(answer) == slice);
}

static void answers(const char *what, uint64_t answer, unsigned number, unsigned place, unsigned count, uint32_t excess) {
    answers_from(what, answer, number, place, count, excess, 0);
}

/* Plan A of the rules, and what they say of it. */
static const uint8_t bytes_a[22] = {0x22, 0x18, 0x40, 0x10, 0x0c, 0x20, 0x14, 0x00, 0x10, 0x01, 0x00,
                                    0x0c, 0x20, 0x08, 0x00, 0x80, 0x04, 0x20, 0x10, 0x01, 0x00, 0x04};
static const uint8_t slots_a[8] = {1, 1, 1, 2, 2, 2, 2, 2};
static const uint8_t verdict_a[32] = {1, 1, 1};
static const uint8_t figures_a[PARCHBEETLE_FIGURES_BYTES] = {0, 0, 0, 2, 0, 0, 0, 4, 0, 0, 0, 5};

static void make_plan_a(uint8_t *plan) {
    static const unsigned kinds[3][4] = {{0, 8, 8, 6}, {1, 4, 4, 2}, {1, 8, 8, 2}};
    memset(plan, 0, PLAN);
    parchbeetle_set_plan_cards(plan, 2);
    parchbeetle_set_plan_projects(plan, 2);
    parchbeetle_set_plan_kinds(plan, 3);
    parchbeetle_set_plan_frame(plan, 4);
    parchbeetle_set_project_ceiling(plan, 0, 1);
    parchbeetle_set_project_budget(plan, 0, 3);
    parchbeetle_set_project_ceiling(plan, 1, 2);
    parchbeetle_set_project_budget(plan, 1, 5);
    for (size_t i = 0; i < 3; i++) {
        parchbeetle_set_kind_project(plan, i, kinds[i][0]);
        parchbeetle_set_kind_separation(plan, i, kinds[i][1]);
        parchbeetle_set_kind_deadline(plan, i, kinds[i][2]);
        parchbeetle_set_kind_length(plan, i, kinds[i][3]);
    }
}

/* Every function, on good answers and on refusals with each part. */
static void functions(void) {
    uint8_t plan[PLAN], made[PLAN], wrong[PLAN], state[STATE], kept[STATE];
    uint8_t bytes[22], slots[8], verdict[32], row[2], figures[PARCHBEETLE_FIGURES_BYTES];

    answers("read", parchbeetle_read(bytes_a, 22, plan, PLAN), 0, 0, 22, 0);
    make_plan_a(made);
    expect("plan A by its fields", memcmp(plan, made, PLAN) == 0);
    answers("read, short", parchbeetle_read(bytes_a, 21, wrong, PLAN), 1, 0, 0, 0);
    answers("read, no room", parchbeetle_read(bytes_a, 22, wrong, PLAN - 1), 9, 0, 0, 0);

    answers("check", parchbeetle_check(plan, PLAN), 0, 0, 0, 0);
    answers("check, short", parchbeetle_check(plan, PLAN - 1), 9, 0, 0, 0);
    memcpy(wrong, plan, PLAN);
    parchbeetle_set_project_ceiling(wrong, 1, 3);
    answers("check, project 1", parchbeetle_check(wrong, PLAN), 4, 1, 0, 0);
    answers("write, project 1", parchbeetle_write(wrong, PLAN, bytes, 22), 4, 1, 0, 0);
    answers("slot_table, project 1", parchbeetle_slot_table(wrong, PLAN, slots, 8), 4, 1, 0, 0);
    memcpy(wrong, plan, PLAN);
    parchbeetle_set_kind_project(wrong, 2, 2);
    answers("check, kind 2", parchbeetle_check(wrong, PLAN), 5, 2, 0, 0);
    parchbeetle_set_kind_deadline(wrong, 1, 5);
    answers("fresh, kind 1", parchbeetle_fresh(wrong, PLAN, state, STATE), 6, 1, 0, 0);

    answers("write", parchbeetle_write(plan, PLAN, bytes, 22), 0, 0, 22, 0);
    expect("bytes", memcmp(bytes, bytes_a, 22) == 0);
    answers("write, no room", parchbeetle_write(plan, PLAN, bytes, 21), 9, 0, 0, 0);

    answers("slot_table", parchbeetle_slot_table(plan, PLAN, slots, 8), 0, 0, 8, 0);
    expect("slots", memcmp(slots, slots_a, 8) == 0);
    answers("slot_table, no room", parchbeetle_slot_table(plan, PLAN, slots, 7), 9, 0, 0, 0);

    answers("verdict", parchbeetle_verdict(plan, PLAN, verdict, 32), 0, 0, 0, 0);
    expect("k and slices", memcmp(verdict, verdict_a, 32) == 0);
    answers("verdict, no room", parchbeetle_verdict(plan, PLAN, verdict, 31), 9, 0, 0, 0);
    memcpy(wrong, plan, PLAN);
    parchbeetle_set_kind_deadline(wrong, 0, 3);
    parchbeetle_set_kind_length(wrong, 0, 2);
    answers("verdict, kind 0 from slice 1", parchbeetle_verdict(wrong, PLAN, verdict, 32), 0, 0, 0, 0);
    expect("the slice of kind 0", verdict[PARCHBEETLE_SLICES_AT] == 1 && verdict[PARCHBEETLE_SLICES_AT + 1] == 0);
    parchbeetle_set_kind_length(wrong, 0, 3);
    answers_from("verdict, kind 0 by 1", parchbeetle_verdict(wrong, PLAN, verdict, 32), 8, 0, 0, 1, 1);
    answers_from("fresh, kind 0 by 1", parchbeetle_fresh(wrong, PLAN, state, STATE), 8, 0, 0, 1, 1);
    memcpy(wrong, plan, PLAN);
    parchbeetle_set_kind_length(wrong, 1, 4);
    answers("verdict, kind 1 by 2", parchbeetle_verdict(wrong, PLAN, verdict, 32), 8, 1, 0, 2);
    answers("fresh, kind 1 by 2", parchbeetle_fresh(wrong, PLAN, state, STATE), 8, 1, 0, 2);

    answers("figures", parchbeetle_figures(plan, PLAN, 1, figures, sizeof figures), 0, 0, 2, 0);
    expect("the figures of kind 1", memcmp(figures, figures_a, sizeof figures) == 0);
    expect("S(2,4)", figures[PARCHBEETLE_FIGURES_SUPPLY_AT(2) + 3] == 5 && figures[PARCHBEETLE_FIGURES_SLICE_AT(2)] == 0);
    answers("figures, short", parchbeetle_figures(plan, PLAN - 1, 3, figures, sizeof figures), 9, 0, 0, 0);
    answers("figures, no kind", parchbeetle_figures(plan, PLAN, (uint64_t)1 << 32, figures, 0), 12, 0, 0, 0);
    answers("figures, no room", parchbeetle_figures(plan, PLAN, 0, figures, sizeof figures - 1), 9, 0, 0, 0);
    expect("a refusal keeps the figures", memcmp(figures, figures_a, sizeof figures) == 0);
    answers("figures, of a refused plan", parchbeetle_figures(wrong, PLAN, 1, figures, sizeof figures), 0, 0, 2, 0);
    expect("the same figures", memcmp(figures, figures_a, sizeof figures) == 0);

    answers("smallest_budget, project 0", parchbeetle_smallest_budget(plan, PLAN, 0), 0, 0, 3, 0);
    answers("smallest_budget, project 1", parchbeetle_smallest_budget(plan, PLAN, 1), 0, 0, 4, 0);
    answers("smallest_budget, short", parchbeetle_smallest_budget(plan, PLAN - 1, 2), 9, 0, 0, 0);
    answers("smallest_budget, no project", parchbeetle_smallest_budget(plan, PLAN, (uint64_t)1 << 32), 27, 0, 0, 0);
    answers("smallest_budget, kind 1 by 1", parchbeetle_smallest_budget(wrong, PLAN, 1), 8, 1, 0, 1);
    memcpy(wrong, plan, PLAN);
    parchbeetle_set_project_budget(wrong, 1, 9);
    answers("smallest_budget, the open budget", parchbeetle_smallest_budget(wrong, PLAN, 1), 0, 0, 4, 0);
    answers("smallest_budget, another budget", parchbeetle_smallest_budget(wrong, PLAN, 0), 4, 1, 0, 0);
    parchbeetle_set_project_ceiling(wrong, 0, 2);
    parchbeetle_set_project_budget(wrong, 0, 5);
    answers("smallest_budget, no room", parchbeetle_smallest_budget(wrong, PLAN, 1), 7, 0, 0, 0);

    /* (3,2), (6,4), (6,3): a frame of 3 slices, and two cells for each. */
    static const uint8_t alone[16] = {0, 3, 0, 2, 0, 6, 0, 4, 0, 6, 0, 3, 0, 65, 0, 66}, wide[4] = {0, 65, 0, 65};
    static const uint8_t nine[36] = {0};
    memset(wrong, 0xee, PLAN);
    answers("build", parchbeetle_build(2, alone, 12, wrong, PLAN), 0, 0, 0, 0);
    expect("the frame built", parchbeetle_plan_frame(wrong) == 3 && parchbeetle_plan_projects(wrong) == 3);
    expect("the budget built", parchbeetle_project_budget(wrong, 2) == 2 && parchbeetle_project_ceiling(wrong, 2) == 1);
    expect("the kind built", parchbeetle_kind_project(wrong, 2) == 2 && parchbeetle_kind_deadline(wrong, 2) == 6);
    answers("verdict, built", parchbeetle_verdict(wrong, PLAN, verdict, 32), 0, 0, 0, 0);
    answers("smallest_budget, built", parchbeetle_smallest_budget(wrong, PLAN, 2), 0, 0, 2, 0);
    memcpy(made, wrong, PLAN);
    answers("build, no cards", parchbeetle_build((uint64_t)1 << 32, alone, 12, wrong, PLAN), 17, 0, 0, 0);
    answers("build, no list", parchbeetle_build(2, alone, 11, wrong, PLAN), 17, 0, 0, 0);
    answers("build, nine", parchbeetle_build(2, nine, 36, wrong, PLAN), 18, 0, 0, 0);
    answers("build, kind 3", parchbeetle_build(2, alone, 16, wrong, PLAN), 6, 3, 0, 0);
    answers("build, 65", parchbeetle_build(2, wide, 4, wrong, PLAN), 19, 0, 0, 0);
    answers("build, one card", parchbeetle_build(1, alone, 12, wrong, PLAN), 7, 0, 0, 0);
    answers("build, no room", parchbeetle_build(2, alone, 12, wrong, PLAN - 1), 9, 0, 0, 0);
    expect("a refusal keeps the plan", memcmp(wrong, made, PLAN) == 0);

    /* Plan A with a spare bit, ceiling 0 of project 1 (and so its budget of 5 above 4), and kind 0 of no project. */
    static const uint8_t listed[24] = {1, 0, 0, 2, 0, 0, 4, 1, 0, 0, 0, 1, 5, 1, 0, 5, 0, 4, 7, 0, 0, 0, 0, 0};
    uint8_t damaged[22], list[26];
    memcpy(damaged, bytes_a, 22);
    damaged[2] |= 2;
    damaged[5] &= 0x0f;
    damaged[7] |= 0x40;
    memset(wrong, 0xee, PLAN);
    memset(list, 0xee, sizeof list);
    answers("rescue, no bytes", parchbeetle_rescue(damaged, 2, wrong, PLAN, list, 24), 1, 0, 0, 0);
    answers("rescue, short", parchbeetle_rescue(damaged, 21, wrong, PLAN, list, 24), 1, 0, 0, 0);
    answers("rescue, no room for the list", parchbeetle_rescue(damaged, 22, wrong, PLAN, list, 23), 9, 0, 0, 0);
    answers("rescue, no room for the plan", parchbeetle_rescue(damaged, 22, wrong, PLAN - 1, list, 24), 9, 0, 0, 0);
    damaged[0] = 0x02;
    answers("rescue, no cards", parchbeetle_rescue(damaged, 22, wrong, PLAN, list, 24), 2, 0, 0, 0);
    damaged[0] = 0x22;
    expect("a refusal keeps both", wrong[0] == 0xee && wrong[PLAN - 1] == 0xee && list[0] == 0xee && list[23] == 0xee);
    answers("rescue", parchbeetle_rescue(damaged, 22, wrong, PLAN, list, 26), 0, 0, 24, 0);
    expect("the list", memcmp(list, listed, 24) == 0 && list[24] == 0xee && list[25] == 0xee);
    expect("a change by its fields", parchbeetle_change_what(list, 2) == 5 && parchbeetle_change_place(list, 2) == 1 &&
                                         parchbeetle_change_old_value(list, 2) == 5 && parchbeetle_change_new_value(list, 2) == 4);
    expect("the plan rescued", parchbeetle_plan_kinds(wrong) == 2 && parchbeetle_kind_length(wrong, 1) == 2 &&
                                   parchbeetle_kind_separation(wrong, 2) == 0 && parchbeetle_project_ceiling(wrong, 1) == 1);
    answers("check, rescued", parchbeetle_check(wrong, PLAN), 0, 0, 0, 0);
    answers("rescue, in order", parchbeetle_rescue(bytes_a, 22, wrong, PLAN, list, 0), 0, 0, 0, 0);
    expect("the plan in order", memcmp(wrong, plan, PLAN) == 0);
    memset(damaged + 7, 0, 15);
    answers("rescue, no kind remains", parchbeetle_rescue(damaged, 22, wrong, PLAN, list, 0), 20, 0, 0, 0);

    answers("fresh", parchbeetle_fresh(plan, PLAN, state, STATE), 0, 0, 0, 0);
    expect("the plan in the state", memcmp(state, plan, PLAN) == 0);
    expect("the sums of a fresh start", parchbeetle_sum_left(state, 0) == 0 && parchbeetle_sum_left(state, 1) == 0);
    answers("fresh, no room", parchbeetle_fresh(plan, PLAN, state, STATE - 1), 9, 0, 0, 0);

    answers("release", parchbeetle_release(state, STATE, 0, 6), 0, 0, 0, 0);
    expect("the sum raised", parchbeetle_sum_left(state, 0) == 6 && parchbeetle_sum_left(state, 1) == 0);
    memcpy(kept, state, STATE);
    answers("release, too early", parchbeetle_release(state, STATE, 0, 6), 14, 0, 0, 0);
    answers("release, no kind", parchbeetle_release(state, STATE, (uint64_t)1 << 32, 1), 12, 0, 0, 0);
    answers("release, too long", parchbeetle_release(state, STATE, 1, ((uint64_t)1 << 32) + 1), 13, 0, 0, 0);
    answers("release, short", parchbeetle_release(state, STATE - 1, 1, 1), 9, 0, 0, 0);
    answers("show, no room", parchbeetle_show(state, STATE, row, 1), 9, 0, 0, 0);
    answers("show, short", parchbeetle_show(state, STATE - 1, row, 2), 9, 0, 0, 0);
    answers("advance, short", parchbeetle_advance(state, STATE - 1), 9, 0, 0, 0);
    expect("a refusal keeps the state", memcmp(state, kept, STATE) == 0);

    answers("show", parchbeetle_show(state, STATE, row, 2), 0, 0, 0, 0);
    expect("row", row[0] == 1 && row[1] == 0);
    expect("showing keeps the state", memcmp(state, kept, STATE) == 0);
    answers("advance", parchbeetle_advance(state, STATE), 0, 0, 0, 0);
    expect("slice", parchbeetle_state_slice(state) == 1);
    expect("gone", parchbeetle_unit_gone(state, 0) == 1 && parchbeetle_unit_gone(state, 1) == 0);
    expect("left", parchbeetle_unit_left(state, 0) == 5);
    expect("the sum lowered", parchbeetle_sum_left(state, 0) == 5);

    /* A flipped bit in a sum or in slices left. */
    static const struct {
        int sum;
        size_t place;
        uint32_t bit;
        unsigned number;
    } flips[] = {{1, 0, 1, 16}, {1, 1, 0x8000, 16}, {1, 2, 1, 10}, {0, 0, 1, 16}, {0, 0, 8, 10}, {0, 1, 1, 10}, {0, 15, 1, 10}};
    for (size_t i = 0; i < sizeof flips / sizeof flips[0]; i++) {
        size_t place = flips[i].place;
        memcpy(kept, state, STATE);
        if (flips[i].sum) {
            parchbeetle_set_sum_left(kept, place, parchbeetle_sum_left(kept, place) ^ flips[i].bit);
        } else {
            parchbeetle_set_unit_left(kept, place, parchbeetle_unit_left(kept, place) ^ flips[i].bit);
        }
        uint8_t flipped[STATE];
        memcpy(flipped, kept, STATE);
        answers("release, a flipped bit", parchbeetle_release(kept, STATE, 1, 2), flips[i].number, 0, 0, 0);
        answers("release, no kind and a flipped bit", parchbeetle_release(kept, STATE, 3, 0), flips[i].number, 0, 0, 0);
        answers("show, a flipped bit", parchbeetle_show(kept, STATE, row, 2), flips[i].number, 0, 0, 0);
        answers("show, a flipped bit and no room", parchbeetle_show(kept, STATE, row, 1), flips[i].number, 0, 0, 0);
        answers("advance, a flipped bit", parchbeetle_advance(kept, STATE), flips[i].number, 0, 0, 0);
        expect("a flipped bit is kept", memcmp(kept, flipped, STATE) == 0);
    }

    /* The slice within the frame, and what is gone held at the separation; a unit that is late is out of form. */
    for (unsigned slice = 1; slice < 12; slice++) {
        expect("the slice within the frame", parchbeetle_state_slice(state) == slice % 4);
        expect("gone, held at 8", parchbeetle_unit_gone(state, 0) == (slice < 8 ? slice : 8));
        answers("advance, on and on", parchbeetle_advance(state, STATE), 0, 0, 0, 0);
    }
    expect("nothing is left", parchbeetle_unit_left(state, 0) == 0 && parchbeetle_sum_left(state, 0) == 0);
    static const struct {
        unsigned slice, gone, left, number;
    } forms[] = {{4, 8, 0, 10}, {255, 8, 0, 10}, {3, 9, 0, 10}, {3, 8, 1, 10}, {3, 7, 1, 14}, {3, 7, 0, 14}, {3, 8, 0, 0}};
    for (size_t i = 0; i < sizeof forms / sizeof forms[0]; i++) {
        memcpy(kept, state, STATE);
        parchbeetle_set_state_slice(kept, forms[i].slice);
        parchbeetle_set_unit_gone(kept, 0, forms[i].gone);
        parchbeetle_set_unit_left(kept, 0, forms[i].left);
        parchbeetle_set_sum_left(kept, 0, forms[i].left);
        answers("release, by its form", parchbeetle_release(kept, STATE, 0, 6), forms[i].number, 0, 0, 0);
    }
    parchbeetle_set_kind_project(state, 2, 2);
    answers("show, kind 2", parchbeetle_show(state, STATE, row, 2), 5, 2, 0, 0);
    answers("advance, kind 2", parchbeetle_advance(state, STATE), 5, 2, 0, 0);
    answers("release, kind 2", parchbeetle_release(state, STATE, 0, 1), 5, 2, 0, 0);
}

/* A field that was set by its name: its bytes stand there and nothing else changed. */
static uint8_t image[STATE];
static size_t covered = 0;

static void stands(const char *what, uint32_t found, uint32_t value, size_t at, size_t bytes) {
    uint8_t expected[STATE] = {0};
    for (size_t i = 0; i < bytes; i++) {
        expected[at + i] = (uint8_t)(value >> 8 * (bytes - 1 - i));
    }
    expect(what, found == value && memcmp(image, expected, sizeof image) == 0);
    memset(image, 0, sizeof image);
    covered += bytes;
}

#define ONCE(name, value, at, bytes)                     \
    parchbeetle_set_##name(image, value);                \
    stands(#name, parchbeetle_##name(image), value, at, bytes)
#define EACH(name, place, value, at, bytes)              \
    parchbeetle_set_##name(image, place, value);         \
    stands(#name, parchbeetle_##name(image, place), value, at, bytes)

/* Where the parts of the images begin, and the bytes of each place. */
enum { PROJECTS = 4, PROJECT = 3 };
enum { KINDS = PROJECTS + 8 * PROJECT, KIND = 7 };
enum { SLICE = KINDS + 16 * KIND, UNITS = SLICE + 1, UNIT = 5 };
enum { SUMS = UNITS + 16 * UNIT, SUM = 2 };

static void fields(void) {
    ONCE(plan_cards, 0x12, 0, 1);
    ONCE(plan_projects, 0x12, 1, 1);
    ONCE(plan_kinds, 0x12, 2, 1);
    ONCE(plan_frame, 0x12, 3, 1);
    for (size_t j = 0; j < 8; j++) {
        EACH(project_ceiling, j, 0x12, PROJECTS + PROJECT * j, 1);
        EACH(project_budget, j, 0x1234, PROJECTS + PROJECT * j + 1, 2);
    }
    for (size_t i = 0; i < 16; i++) {
        EACH(kind_project, i, 0x12, KINDS + KIND * i, 1);
        EACH(kind_separation, i, 0x1234, KINDS + KIND * i + 1, 2);
        EACH(kind_deadline, i, 0x1234, KINDS + KIND * i + 3, 2);
        EACH(kind_length, i, 0x1234, KINDS + KIND * i + 5, 2);
    }
    ONCE(state_slice, 0x12, SLICE, 1);
    for (size_t i = 0; i < 16; i++) {
        EACH(unit_released, i, 1, UNITS + UNIT * i, 1);
        EACH(unit_gone, i, 0x1234, UNITS + UNIT * i + 1, 2);
        EACH(unit_left, i, 0x1234, UNITS + UNIT * i + 3, 2);
    }
    for (size_t j = 0; j < 8; j++) {
        EACH(sum_left, j, 0x1234, SUMS + SUM * j, 2);
    }
    expect("every byte of the images is some field's", covered == sizeof image);

    /* A place that is not there, and values too wide. */
    parchbeetle_set_project_budget(image, 8, 1);
    stands("no project 8", parchbeetle_project_budget(image, 8), 0, 0, 0);
    parchbeetle_set_unit_left(image, 16, 1);
    stands("no kind 16", parchbeetle_unit_left(image, 16), 0, 0, 0);
    parchbeetle_set_sum_left(image, 8, 1);
    stands("no sum 8", parchbeetle_sum_left(image, 8), 0, 0, 0);
    parchbeetle_set_kind_length(image, 0, 65536 + 5);
    stands("too wide", parchbeetle_kind_length(image, 0), 65535, KINDS + 5, 2);
    parchbeetle_set_state_slice(image, (uint64_t)1 << 32);
    stands("much too wide", parchbeetle_state_slice(image), 255, SLICE, 1);
}

static void words(void) {
    expect("0 in words", strcmp(parchbeetle_words(0), "good") == 0);
    for (unsigned number = 1; number < 28; number++) {
        int known = strcmp(parchbeetle_words(number), parchbeetle_words(28)) != 0;
        int retired = number == 11 || number == 15;
        expect("a number in words", known == ((number < 21 && !retired) || number == 27));
    }
    expect("28 is no number", strcmp(parchbeetle_words(28), "no number of this version") == 0);
}

int main(void) {
    functions();
    fields();
    words();
    if (faults == 0) {
        printf("header: every function and every field through it, %d checks\n", checks);
    }
    return faults != 0;
}
