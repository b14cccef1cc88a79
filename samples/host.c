/* A card host: makes a plan, asks for the budget that it needs, starts on it, releases two units, and shows and runs slices until none
 * is left of them. Then a bit flips in its memory. */
#include <stdio.h>

#include "parchbeetle.h"

enum { CARDS = 2 };

static int good(const char *what, uint64_t answer) {
    unsigned number = PARCHBEETLE_NUMBER(answer);
    printf("%s: %s", what, parchbeetle_words(number));
    if (number == 8) {
        printf(" (kind %u, by %u from slice %u on)", PARCHBEETLE_PLACE(answer), PARCHBEETLE_EXCESS(answer),
               PARCHBEETLE_SLICE(answer));
    }
    if (PARCHBEETLE_COUNT(answer) > 0) {
        printf(" (%u)", PARCHBEETLE_COUNT(answer));
    }
    printf("\n");
    return number == 0;
}

/* What the cards are about to serve: time to load it. */
static void show(const uint8_t *state) {
    uint8_t row[CARDS];
    printf("slice %u:", parchbeetle_state_slice(state));
    parchbeetle_show(state, PARCHBEETLE_STATE_IMAGE, row, sizeof row);
    for (unsigned card = 0; card < CARDS; card++) {
        row[card] == 0 ? printf(" idle") : printf(" kind %u", row[card] - 1u);
    }
    printf(", %u left\n", parchbeetle_sum_left(state, 0));
}

int main(void) {
    uint8_t plan[PARCHBEETLE_PLAN_IMAGE] = {0}, state[PARCHBEETLE_STATE_IMAGE];
    parchbeetle_set_plan_cards(plan, CARDS);
    parchbeetle_set_plan_frame(plan, 4);
    parchbeetle_set_plan_projects(plan, 1);
    parchbeetle_set_project_ceiling(plan, 0, 2);
    parchbeetle_set_project_budget(plan, 0, 7);
    parchbeetle_set_plan_kinds(plan, 2);
    for (size_t kind = 0; kind < 2; kind++) {
        parchbeetle_set_kind_separation(plan, kind, 8);
        parchbeetle_set_kind_deadline(plan, kind, 8);
        parchbeetle_set_kind_length(plan, kind, 5);
    }
    while (!good("start", parchbeetle_fresh(plan, sizeof plan, state, sizeof state))) {
        uint64_t smallest = parchbeetle_smallest_budget(plan, sizeof plan, 0);
        if (!good("smallest budget", smallest)) {
            return 1;
        }
        parchbeetle_set_project_budget(plan, 0, PARCHBEETLE_COUNT(smallest));
    }
    good("release of kind 0", parchbeetle_release(state, sizeof state, 0, 4));
    show(state);
    /* What was shown no longer holds, so it is shown again. */
    good("release of kind 1", parchbeetle_release(state, sizeof state, 1, 2));
    good("again", parchbeetle_release(state, sizeof state, 1, 2));
    while (parchbeetle_sum_left(state, 0) > 0) {
        show(state);
        parchbeetle_advance(state, sizeof state);
    }
    /* The next call says so, whichever it is. */
    parchbeetle_set_unit_left(state, 0, parchbeetle_unit_left(state, 0) ^ 1);
    good("after a flipped bit", parchbeetle_advance(state, sizeof state));
    return 0;
}
