/*
 * Parchbeetle: frame plans, verdicts and slices, as functions on lent bytes.
 *
 * Plain C99, Linux x86-64. To build the library and a program over it:
 *
 *   .ci/library
 *   cc -std=c99 -Iinclude samples/host.c -Ltarget/staticlib -lparchbeetle -o host
 *
 * samples/host.c is a whole program. No function keeps a pointer, allocates, or has
 * a state of its own; each may be called from any thread.
 *
 * Every buffer is a pointer and a length in bytes. A pointer must be valid for
 * its length and, if the function writes there, must not overlap another buffer
 * of the same call. With length 0 the pointer is not followed, but must not be
 * NULL.
 */
#ifndef PARCHBEETLE_H
#define PARCHBEETLE_H

#include <stddef.h>
#include <stdint.h>

#ifdef __cplusplus
extern "C" {
#endif

/*
 * The version of this header and of the library beside it, as "major.minor.patch".
 * A minor version may add functions, fields and numbers, and before 1.0.0 it may
 * change them; an image belongs to the version that made it. Plan bytes are read by
 * every later version.
 */
#define PARCHBEETLE_VERSION "0.9.0"
#define PARCHBEETLE_VERSION_MAJOR 0
#define PARCHBEETLE_VERSION_MINOR 9
#define PARCHBEETLE_VERSION_PATCH 0

/* ---- Images */

/*
 * A plan and a state cross as images: the fields below one after the other without
 * a gap, each with so many bytes, high byte first. Any bytes may be given: fields
 * out of range are refused, by number.
 *
 * A plan image has the four fields of a plan, then 8 places of a project, then 16
 * places of a kind; places of projects at or beyond `projects` and of kinds at or
 * beyond `kinds` hold zeros. A state image has the plan image, the field of a state,
 * 16 places of a kind's unit, and then 8 places of a project's sum.
 */
#define PARCHBEETLE_PLAN_FIELDS(field)                                                  \
    field(cards, 1)       /* m, 1..8 */                                                 \
    field(projects, 1)    /* p, 1..8 */                                                 \
    field(kinds, 1)       /* n, 1..16 */                                                \
    field(frame, 1)       /* F, 1..64: the slices of a frame */

#define PARCHBEETLE_PROJECT_FIELDS(field)                                               \
    field(ceiling, 1)     /* q, 1..m: the most cards at once */                         \
    field(budget, 2)      /* B, 1..qF: cells in each frame */

#define PARCHBEETLE_KIND_FIELDS(field)                                                  \
    field(project, 1)     /* the project's number, from 0 */                            \
    field(separation, 2)  /* T, at most 4095: from one release to the next, at least */ \
    field(deadline, 2)    /* D, at most T */                                            \
    field(length, 2)      /* C, 1..D: the slices of a unit, at most */

#define PARCHBEETLE_STATE_FIELDS(field)                                                 \
    field(slice, 1)       /* the slice within the frame that is next, 0..F-1 */

#define PARCHBEETLE_UNIT_FIELDS(field)                                                  \
    field(released, 1)    /* 1 if the kind was ever released, else 0; any other is 10 */ \
    field(gone, 2)        /* slices since its last release, held at T; 0 if never */    \
    field(left, 2)        /* slices left; none where D or more are gone */

#define PARCHBEETLE_SUM_FIELDS(field)                                                   \
    field(left, 2)        /* slices left of all the project's kinds; beyond p: 0 */

#define PARCHBEETLE_PLAN_IMAGE 140u
#define PARCHBEETLE_STATE_IMAGE 237u

/*
 * What a verdict writes: bytes 0-15 are the least k of each kind, bytes 16-31 the bad
 * slice for that k, of which every kind has one byte; 0 beyond n. A unit that arrives
 * in the bad slice of the frame has the fewest cells ahead of it within its deadline;
 * of several such slices it is the earliest.
 */
#define PARCHBEETLE_VERDICT_BYTES 32u
#define PARCHBEETLE_SLICES_AT 16u

/*
 * What the figures of a kind are: its workload W in 4 bytes, then S(k,D) for each k of
 * 1..8 in 4 bytes each, then the bad slice of each in a byte; numbers have the high
 * byte first. Beyond the ceiling q of its project there is 0. The kind fits at k when k
 * times its length plus W is at most S(k,D).
 */
#define PARCHBEETLE_FIGURES_BYTES 44u
#define PARCHBEETLE_FIGURES_SUPPLY_AT(k) (4u * (k))
#define PARCHBEETLE_FIGURES_SLICE_AT(k) (35u + (k))

/*
 * What a rescue lists: six bytes for each change. A place is the project's or the kind's
 * number in the original; 0 for the header. A dropped kind has both values 0.
 */
#define PARCHBEETLE_CHANGE_FIELDS(field)                                                \
    field(what, 1)        /* spare bits of 1 the header, 2 a project, 3 a kind; 4 a     \
                             ceiling, 5 a budget, 6 a deadline; 7 a dropped kind */     \
    field(place, 1)                                                                     \
    field(old_value, 2)                                                                 \
    field(new_value, 2)

#define PARCHBEETLE_CHANGE_BYTES 6u

/* The most bytes that a plan, a slot table, the list of a rescue or a row can take. */
#define PARCHBEETLE_MOST_PLAN_BYTES 99u
#define PARCHBEETLE_MOST_TABLE_BYTES 512u
#define PARCHBEETLE_MOST_LIST_BYTES 342u
#define PARCHBEETLE_MOST_ROW_BYTES 8u

/*
 * Each field has two functions, made from the lists above (at the end of this file):
 *
 *   uint32_t parchbeetle_plan_cards(const uint8_t *plan);
 *   void     parchbeetle_set_plan_cards(uint8_t *plan, uint64_t value);
 *   uint32_t parchbeetle_project_budget(const uint8_t *plan, size_t project);
 *   void     parchbeetle_set_project_budget(uint8_t *plan, size_t project, uint64_t value);
 *   uint32_t parchbeetle_kind_deadline(const uint8_t *plan, size_t kind);
 *   uint32_t parchbeetle_state_slice(const uint8_t *state);
 *   uint32_t parchbeetle_unit_left(const uint8_t *state, size_t kind);
 *   uint32_t parchbeetle_sum_left(const uint8_t *state, size_t project);
 *
 * and so on; a change of a list is only read:
 *
 *   uint32_t parchbeetle_change_what(const uint8_t *list, size_t change);
 *
 * The image must be whole. A state image begins with its plan image, so
 * the functions of plan, project and kind take either. A place that is not there
 * reads as 0 and is not written. A value too wide for its field is stored as the
 * widest that fits, which every call refuses.
 */

/* ---- Answers */

/*
 * Every function gives back one number of 64 bits:
 *
 *   bits 0-7    number: 0 for a good answer, else one of those below
 *   bits 8-15   place: the project (with 4) or the kind (with 5, 6, 8); else 0
 *   bits 16-31  count: bytes taken (read) or written (write, slot_table; of the list:
 *               rescue), the least budget (smallest_budget), or how many k there are
 *               (figures); 0 for the other functions and on a refusal
 *   bits 32-55  excess (with 8): the slices by which the unit is too long. With a
 *               length that is shorter by so much or more the kind has a k, by less it
 *               has none; where no length fits it is the whole length. Else 0
 *   bits 56-63  slice (with 8): the bad slice of the frame for a unit that is
 *               shorter by the excess, for the least k that allows it; else 0
 *
 * A plan or state image that is given and is shorter than its size: 9, before
 * anything else is looked at. An image or a buffer may be longer than needed; the
 * rest is not looked at and keeps its value. On a refusal every lent buffer keeps
 * every byte.
 */
#define PARCHBEETLE_NUMBER(answer) ((unsigned)((answer) & 0xffu))
#define PARCHBEETLE_PLACE(answer) ((unsigned)((answer) >> 8 & 0xffu))
#define PARCHBEETLE_COUNT(answer) ((unsigned)((answer) >> 16 & 0xffffu))
#define PARCHBEETLE_EXCESS(answer) ((uint32_t)((answer) >> 32 & 0xffffffu))
#define PARCHBEETLE_SLICE(answer) ((unsigned)((answer) >> 56 & 0xffu))

/* Each number and what it says; 8 names the first kind with no k, 4 the first such project. */
#define PARCHBEETLE_NUMBERS(number)                                             \
    number(0, "good")                                                           \
    number(1, "fewer bytes than a plan takes")                                  \
    number(2, "cards, projects, kinds or frame out of range")                   \
    number(3, "a spare bit or an unused place is not zero")                     \
    number(4, "a project's ceiling or budget is out of range")                  \
    number(5, "a kind names a project that is not there")                       \
    number(6, "a kind is not 1 <= length <= deadline <= separation <= 4095")    \
    number(7, "the budgets sum above the cards times the frame")                \
    number(8, "not admitted: a kind's unit is too long")                        \
    number(9, "a buffer is shorter than needed")                                \
    number(10, "the state is out of form")                                      \
    number(12, "there is no such kind")                                         \
    number(13, "the unit's length is 0 or above its kind's")                    \
    number(14, "the kind's last release was less than its separation ago")      \
    number(16, "a stored sum differs from what is left")                        \
    number(17, "cards out of range, or no list of kinds")                       \
    number(18, "more than eight kinds are listed")                              \
    number(19, "the separations' greatest common divisor exceeds 64")           \
    number(20, "no kind remains")                                               \
    number(27, "there is no such project")

/* A number in words, as above. */
static inline const char *parchbeetle_words(unsigned number);

/* ---- Plans */

/*
 * Is this plan in order?
 * Refusals, in order: 9 (plan_len below 140), 2, 3, 4, then kind by kind 5 and 6, 7.
 */
uint64_t parchbeetle_check(const uint8_t *plan, size_t plan_len);

/*
 * Reads plan bytes (3 + 2p + 5n of them, from the front of what is given) into the
 * first 140 bytes at `plan`. The count is how many bytes the plan took.
 * Refusals, in order: 1 (first three bytes), 2, 1 (the total), 3, 4, then kind by
 * kind 5 and 6, 7; then 9 (plan_len below 140).
 */
uint64_t parchbeetle_read(const uint8_t *bytes, size_t bytes_len, uint8_t *plan, size_t plan_len);

/*
 * Writes the plan's bytes to the front of `out`. The count is how many.
 * Refusals: as parchbeetle_check, then 9 (out_len below 3 + 2p + 5n).
 */
uint64_t parchbeetle_write(const uint8_t *plan, size_t plan_len, uint8_t *out, size_t out_len);

/*
 * Writes the slot table to the front of `out`, card by card, F bytes each: project
 * number plus 1, or 0 for a free cell. The count is mF.
 * Refusals: as parchbeetle_check, then 9 (out_len below mF).
 */
uint64_t parchbeetle_slot_table(const uint8_t *plan, size_t plan_len, uint8_t *out, size_t out_len);

/*
 * Judges the plan. When it is admitted, the first 32 bytes at `k` are the least k of
 * each kind and then the bad slice of each, 0 beyond n.
 * Refusals: as parchbeetle_check, then 8, then 9 (k_len below 32).
 */
uint64_t parchbeetle_verdict(const uint8_t *plan, size_t plan_len, uint8_t *k, size_t k_len);

/*
 * The smallest budget of a project: the least B of 1..qF at which each of its kinds
 * has a k. Its stored budget is not looked at, and no other project's kinds are
 * judged. The count is that budget; with it the plan is in order.
 * Refusals, in order: 9 (plan_len below 140), 2, 3, 27, 4 (of every project; of this
 * one the ceiling alone), then kind by kind 5 and 6; 8 (no budget of 1..qF serves; place,
 * excess and slice are those at qF); 7 (the least budget makes the sum too large).
 */
uint64_t parchbeetle_smallest_budget(const uint8_t *plan, size_t plan_len, uint64_t project);

/*
 * Builds a finished plan in which each kind is a project of its own, with ceiling 1
 * and its separation as its deadline, into the first 140 bytes at `plan`. `list` has
 * four bytes for each kind: its separation and then its length, high byte first; a
 * list_len that is no multiple of four is no list. The frame is the greatest common
 * divisor F of all separations T, and each budget the least that serves, F times the
 * length over T rounded up. Every plan that is built is admitted.
 * Refusals, in order: 17 (cards not 1..8, or no kind), 18 (more than eight kinds), 6,
 * 19 (F exceeds 64), 7; then 9 (plan_len below 140).
 */
uint64_t parchbeetle_build(uint64_t cards, const uint8_t *list, size_t list_len, uint8_t *plan,
                           size_t plan_len);

/*
 * Rescues damaged plan bytes: a plan that passes 2 to 6 (its budgets may still sum
 * above the cards times the frame: parchbeetle_check then says 7) into the first 140
 * bytes at `plan`, and each change into `list`. The count is the bytes of the list, six
 * for each change, 0 where nothing was to be done. In this order: spare bits are
 * cleared, of the header, the projects and the kinds; by project a ceiling of 0 becomes
 * 1 and one above m becomes m, then a budget of 0 becomes 1 and one above qF becomes qF;
 * by kind a deadline above its separation becomes that, and then the kind is dropped if
 * its project is not there or its length is 0 or above its deadline; later kinds move
 * up. A dropped kind is listed once, as that. Nothing behind the plan's bytes is looked
 * at.
 * Refusals, in order: 1 (first three bytes), 2, 1 (the total), 20; then 9 (list_len
 * below the list's bytes, or plan_len below 140).
 */
uint64_t parchbeetle_rescue(const uint8_t *bytes, size_t bytes_len, uint8_t *plan, size_t plan_len,
                            uint8_t *list, size_t list_len);

/* ---- Running */

/*
 * A state has no clock that could run out: it keeps the slice within the frame that is
 * next, and for each kind the slices gone since its last release, of which no more are
 * counted than its separation. A rack may run for ever.
 *
 * A state keeps beside each kind's slices left the sum of them for each project: a
 * release raises it, an advance lowers it. Every call below that is given a state
 * looks at both. A bit that flips in a sum or in any slices left is told by the next
 * call, as 16, or as 10 where that field is then out of form: the state must not be
 * used on, and the call has changed nothing.
 */

/*
 * A fresh start: the first 237 bytes at `state` are the plan in the first slice of a
 * frame, with no kind ever released and every sum 0.
 * Refusals: as parchbeetle_check, then 8, then 9 (state_len below 237).
 */
uint64_t parchbeetle_fresh(const uint8_t *plan, size_t plan_len, uint8_t *state, size_t state_len);

/*
 * Releases a unit of `kind` with length `e`, before the next slice. The state is
 * changed in place. A kind with slices left is refused by 14: slices are left only
 * within the deadline, which is at most the separation.
 * Refusals: 9 (state_len below 237), the plan's 2 to 7, 10, 16, 12, 13, 14.
 */
uint64_t parchbeetle_release(uint8_t *state, size_t state_len, uint64_t kind, uint64_t e);

/*
 * Shows the next slice and keeps the state: the first m bytes at `row` say which kind
 * each card is to serve: kind number plus 1, or 0. It may be shown as often as wanted;
 * a release changes the state, so that what was shown before it may no longer hold.
 * Refusals: 9 (state_len below 237), the plan's 2 to 7, 10, 16, 9 (row_len below m).
 */
uint64_t parchbeetle_show(const uint8_t *state, size_t state_len, uint8_t *row, size_t row_len);

/*
 * Runs the slice that parchbeetle_show shows on this very state, shown or not. The
 * state is changed in place. In a run that begins with parchbeetle_fresh it is never
 * refused; in a state made by hand on a plan that is not admitted a unit may come to
 * be late, and the next call then says 10.
 * Refusals: 9 (state_len below 237), the plan's 2 to 7, 10, 16.
 */
uint64_t parchbeetle_advance(uint8_t *state, size_t state_len);

/* ---- Figures */

/*
 * Writes the figures of a kind to the first 44 bytes at `out`, whether the plan is
 * admitted or not. The count is q, the ceiling of its project: how many k there are.
 * Refusals: as parchbeetle_check, then 12, then 9 (out_len below 44).
 */
uint64_t parchbeetle_figures(const uint8_t *plan, size_t plan_len, uint64_t kind, uint8_t *out,
                             size_t out_len);

/* ---- What the lists above make */

static inline const char *parchbeetle_words(unsigned number) {
    switch (number) {
#define PARCHBEETLE_WORDS_(n, words) \
    case n:                          \
        return words;
        PARCHBEETLE_NUMBERS(PARCHBEETLE_WORDS_)
#undef PARCHBEETLE_WORDS_
    default:
        return "no number of this version";
    }
}

/* The images as structures of bytes, which have no gaps. */
#define PARCHBEETLE_BYTES_(name, bytes) uint8_t name[bytes];
struct parchbeetle_project {
    PARCHBEETLE_PROJECT_FIELDS(PARCHBEETLE_BYTES_)
};
struct parchbeetle_kind {
    PARCHBEETLE_KIND_FIELDS(PARCHBEETLE_BYTES_)
};
struct parchbeetle_plan {
    PARCHBEETLE_PLAN_FIELDS(PARCHBEETLE_BYTES_)
    struct parchbeetle_project project[8];
    struct parchbeetle_kind kind[16];
};
struct parchbeetle_change {
    PARCHBEETLE_CHANGE_FIELDS(PARCHBEETLE_BYTES_)
};
struct parchbeetle_unit {
    PARCHBEETLE_UNIT_FIELDS(PARCHBEETLE_BYTES_)
};
struct parchbeetle_sum {
    PARCHBEETLE_SUM_FIELDS(PARCHBEETLE_BYTES_)
};
struct parchbeetle_state {
    struct parchbeetle_plan plan;
    PARCHBEETLE_STATE_FIELDS(PARCHBEETLE_BYTES_)
    struct parchbeetle_unit unit[16];
    struct parchbeetle_sum sum[8];
};
#undef PARCHBEETLE_BYTES_

/* The lists have the images' sizes, else this does not compile. */
typedef char parchbeetle_sizes_[sizeof(struct parchbeetle_plan) == PARCHBEETLE_PLAN_IMAGE &&
                                        sizeof(struct parchbeetle_state) == PARCHBEETLE_STATE_IMAGE &&
                                        sizeof(struct parchbeetle_change) == PARCHBEETLE_CHANGE_BYTES
                                    ? 1
                                    : -1];

static inline uint32_t parchbeetle_get_(const uint8_t *field, size_t bytes) {
    uint32_t value = 0;
    for (size_t i = 0; i < bytes; i++) {
        value = value << 8 | field[i];
    }
    return value;
}

static inline void parchbeetle_put_(uint8_t *field, size_t bytes, uint64_t value) {
    uint64_t most = ((uint64_t)1 << 8 * bytes) - 1;
    if (value > most) {
        value = most;
    }
    for (size_t i = bytes; i > 0; i--) {
        field[i - 1] = (uint8_t)value;
        value >>= 8;
    }
}

/* A field that stands once, and one that stands in each of some places. */
#define PARCHBEETLE_ONCE_(image, field, bytes)                                               \
    static inline uint32_t parchbeetle_##image##_##field(const uint8_t *image) {             \
        return parchbeetle_get_(image + offsetof(struct parchbeetle_##image, field), bytes); \
    }                                                                                        \
    static inline void parchbeetle_set_##image##_##field(uint8_t *image, uint64_t value) {   \
        parchbeetle_put_(image + offsetof(struct parchbeetle_##image, field), bytes, value); \
    }
#define PARCHBEETLE_EACH_(image, part, places, field, bytes)                                     \
    static inline size_t parchbeetle_at_##part##_##field(size_t place) {                         \
        return offsetof(struct parchbeetle_##image, part) +                                      \
               place * sizeof(struct parchbeetle_##part) +                                       \
               offsetof(struct parchbeetle_##part, field);                                       \
    }                                                                                            \
    static inline uint32_t parchbeetle_##part##_##field(const uint8_t *image, size_t part) {     \
        if (part >= places) {                                                                    \
            return 0;                                                                            \
        }                                                                                        \
        return parchbeetle_get_(image + parchbeetle_at_##part##_##field(part), bytes);           \
    }                                                                                            \
    static inline void parchbeetle_set_##part##_##field(uint8_t *image, size_t part,             \
                                                        uint64_t value) {                        \
        if (part < places) {                                                                     \
            parchbeetle_put_(image + parchbeetle_at_##part##_##field(part), bytes, value);       \
        }                                                                                        \
    }
#define PARCHBEETLE_OF_CHANGE_(field, bytes)                                                 \
    static inline uint32_t parchbeetle_change_##field(const uint8_t *list, size_t change) {  \
        size_t at = change * sizeof(struct parchbeetle_change);                              \
        return parchbeetle_get_(list + at + offsetof(struct parchbeetle_change, field), bytes); \
    }
#define PARCHBEETLE_OF_PLAN_(field, bytes) PARCHBEETLE_ONCE_(plan, field, bytes)
#define PARCHBEETLE_OF_PROJECT_(field, bytes) PARCHBEETLE_EACH_(plan, project, 8, field, bytes)
#define PARCHBEETLE_OF_KIND_(field, bytes) PARCHBEETLE_EACH_(plan, kind, 16, field, bytes)
#define PARCHBEETLE_OF_STATE_(field, bytes) PARCHBEETLE_ONCE_(state, field, bytes)
#define PARCHBEETLE_OF_UNIT_(field, bytes) PARCHBEETLE_EACH_(state, unit, 16, field, bytes)
#define PARCHBEETLE_OF_SUM_(field, bytes) PARCHBEETLE_EACH_(state, sum, 8, field, bytes)
PARCHBEETLE_PLAN_FIELDS(PARCHBEETLE_OF_PLAN_)
PARCHBEETLE_PROJECT_FIELDS(PARCHBEETLE_OF_PROJECT_)
PARCHBEETLE_KIND_FIELDS(PARCHBEETLE_OF_KIND_)
PARCHBEETLE_STATE_FIELDS(PARCHBEETLE_OF_STATE_)
PARCHBEETLE_UNIT_FIELDS(PARCHBEETLE_OF_UNIT_)
PARCHBEETLE_SUM_FIELDS(PARCHBEETLE_OF_SUM_)
PARCHBEETLE_CHANGE_FIELDS(PARCHBEETLE_OF_CHANGE_)
#undef PARCHBEETLE_ONCE_
#undef PARCHBEETLE_EACH_
#undef PARCHBEETLE_OF_PLAN_
#undef PARCHBEETLE_OF_PROJECT_
#undef PARCHBEETLE_OF_KIND_
#undef PARCHBEETLE_OF_STATE_
#undef PARCHBEETLE_OF_UNIT_
#undef PARCHBEETLE_OF_SUM_
#undef PARCHBEETLE_OF_CHANGE_

#ifdef __cplusplus
}
#endif

#endif
