/* The marked day of document 01 (P1): loads the printed book, runs its ten requests from blank and prints the answers. Then a lobby with
 * a public folder, a book that is refused with 19, a post room whose steps lower, the level that is then stored for its person, a call
 * that is answered 20, a front counter that is told which clearance to request, and jobs that a planner puts in an order. Exits with 1 if
 * something else is answered than stands here. */
#include "kweldabe.h"

#include <stdio.h>
#include <string.h>

static const uint8_t book[] = {
    1, 15,                                                            /* all four rules */
    2, 0,  0,  2, 1, 0, 2, 2,  1,                                     /* firms */
    3, 0,  3,  32, 3, 1, 1, 16,                                       /* persons */
    4, 0,  0,  0, 3, 32, 4, 1, 1, 0, 3, 32, 4, 2, 2, 1, 1, 16,        /* folders */
    5, 0,  3,  0, 3, 0, 1, 0,  7, 0,                                  /* a role */
    6, 0,  1,  6, 1, 2,                                               /* pairs of steps */
    0,
};

static const uint8_t requests[] = {
    17, 0, 0, 16, 0, 1, 16, 0, 2, 17, 0, 0, 18, 0, 1, 19, 1, 1, 2, 19, 1, 0, 2, 19, 1, 1, 2, 19, 1, 1, 2, 16, 5, 0,
};

static const uint8_t expected[] = {0, 14, 0, 15, 0, 17, 0, 0, 17, 13};

/* Two rivals under the wall; folder 2, of the second one, is public. */
static const uint8_t lobby[] = {
    1, 1, 2, 0, 0, 2, 1, 0, 3, 0, 0, 0, 4, 0, 0, 0, 0, 0, 4, 1, 1, 0, 0, 0, 4, 2, 1, 0, 0, 0, 7, 2, 0,
};

static const uint8_t visits[] = {16, 0, 0, 16, 0, 1, 16, 0, 2, 16, 0, 1};

static const uint8_t passed[] = {0, 14, 0, 14};

/* A mark of a folder that is not declared: 19 at 2. */
static const uint8_t undeclared[] = {1, 1, 7, 2, 0};

/* Low-water alone: a step on folder 1 lowers the person, so that a write in folder 0 and a step on folder 2 are refused: for the one the
 * rank is too low, and for the other a compartment is missing. */
static const uint8_t post_room[] = {
    1, 2, 2, 0, 0, 3, 0, 3, 32, 4, 0, 0, 0, 3, 32, 4, 1, 0, 0, 1, 16, 4, 2, 0, 0, 4, 16, 0,
};

static const uint8_t steps[] = {19, 0, 5, 1, 17, 0, 0, 19, 0, 3, 2, 19, 0, 0, 1};

static const uint8_t lowered[] = {0, 15, 21, 0};

/* Low-water alone: person 0 writes in three folders, and each person starts the other. A compartment is missing for folder 0 and for the
 * start of person 1. The rank is too low for folder 1, where a compartment is missing besides, for folder 2 and for the start of
 * person 0. */
static const uint8_t front_counter[] = {
    1, 2, 2, 0, 0, 3, 0, 1, 32, 3, 1, 3, 16, 4, 0, 0, 0, 3, 16, 4, 1, 0, 0, 3, 48, 4, 2, 0, 0, 1, 48, 0,
};

static const uint8_t attempts[] = {17, 0, 0, 17, 0, 1, 17, 0, 2, 18, 0, 1, 18, 1, 0};

static const uint8_t told[] = {21, 15, 15, 21, 15};

/* Low-water and the pipeline: folder 1 is below folder 0, and step 0 enables 1, which enables 2. */
static const uint8_t planners[] = {
    1, 10, 2, 0, 0, 3, 0, 3, 32, 4, 0, 0, 0, 3, 32, 4, 1, 0, 0, 1, 16, 6, 0, 1, 6, 1, 2, 0,
};

/* Steps 2, 1 and 0 on folder 1, and a write in folder 0, which must come before a step lowers the person: one order is left. */
static const uint8_t jobs[] = {19, 0, 1, 2, 19, 0, 1, 1, 19, 0, 1, 0, 17, 0, 0, 0};

static const uint8_t order[] = {3, 2, 1, 0};

/* A list with a start. */
static const uint8_t with_start[] = {17, 0, 0, 0, 18, 0, 0, 0};

static uint8_t history[KWELDABE_HISTORY_BYTES];
static uint8_t levels[KWELDABE_LEVELS_BYTES];
static uint8_t answers[sizeof expected];

/* Runs requests from blank, and says whether the answers are these. */
static int answered(const char *name, const uint8_t *rules, size_t rules_length, const uint8_t *asked, size_t asked_length,
                    const uint8_t *numbers, size_t count) {
    if (kweldabe_blank(rules, rules_length, history, sizeof history, levels, sizeof levels) != 0) {
        return 0;
    }
    kweldabe_run(rules, rules_length, history, sizeof history, levels, sizeof levels, asked, asked_length, answers, count);
    printf("%s", name);
    for (size_t i = 0; i < count; i++) {
        printf(" %u", (unsigned)answers[i]);
    }
    printf("\n");
    return memcmp(answers, numbers, count) == 0;
}

static int lobby_is_open(void) {
    return answered("lobby", lobby, sizeof lobby, visits, sizeof visits, passed, sizeof passed) &&
           kweldabe_load(undeclared, sizeof undeclared) == (2 << 8 | 19);
}

/* The level of a person in a standing. */
static unsigned level_of(uint8_t person) {
    const uint64_t standing = kweldabe_standing(post_room, sizeof post_room, history, sizeof history, levels, sizeof levels, person);
    return (unsigned)(standing >> 8 & 0xffff);
}

/* The person's level is then that of folder 1. */
static int steps_alter(void) {
    return answered("post room", post_room, sizeof post_room, steps, sizeof steps, lowered, sizeof lowered) &&
           level_of(0) == 0x1001;
}

/* It is stored in the person's two bytes, the low one first. A level that the caller stores counts as it stands, and a call with levels of
 * another length is answered 20. */
static int levels_are_held(void) {
    const unsigned stored = levels[0] | (unsigned)levels[1] << 8;
    printf("stored level %u\n", stored);
    levels[1] = 0x20;
    const unsigned changed = level_of(0);
    const uint8_t number = kweldabe_judge(post_room, sizeof post_room, history, sizeof history, levels, sizeof levels - 1, steps, 4);
    printf("levels of 127 bytes %u\n", (unsigned)number);
    return stored == 0x1001 && changed == 0x2001 && number == 20;
}

/* 15 or 21, for writes and starts alike. */
static int clearance_is_told(void) {
    return answered("front counter", front_counter, sizeof front_counter, attempts, sizeof attempts, told, sizeof told);
}

/* The number of a plan for jobs, from the history and the levels as they are. */
static uint8_t planned(const uint8_t *list, size_t list_length, uint8_t *positions, size_t count) {
    return kweldabe_plan(planners, sizeof planners, history, sizeof history, levels, sizeof levels, list, list_length, positions, count);
}

/* The order from blank, then zeros. The first job alone has no order, a list with a start is refused, and so are too few positions: the
 * positions stay. */
static int jobs_have_an_order(void) {
    uint8_t positions[KWELDABE_MOST_JOBS];
    static const uint8_t zeros[sizeof positions - sizeof order];
    memset(positions, 99, sizeof positions);
    if (kweldabe_blank(planners, sizeof planners, history, sizeof history, levels, sizeof levels) != 0 ||
        planned(jobs, sizeof jobs, positions, sizeof positions) != 0) {
        return 0;
    }
    printf("order");
    for (size_t i = 0; i < sizeof order; i++) {
        printf(" %u", (unsigned)positions[i]);
    }
    const uint8_t alone = planned(jobs, 4, positions, sizeof positions);
    const uint8_t start = planned(with_start, sizeof with_start, positions, sizeof positions);
    const uint8_t fewer = planned(jobs, sizeof jobs, positions, sizeof positions - 1);
    printf("\nthe first job alone %u, with a start %u, fewer positions %u\n", (unsigned)alone, (unsigned)start, (unsigned)fewer);
    return memcmp(positions, order, sizeof order) == 0 && memcmp(positions + sizeof order, zeros, sizeof zeros) == 0 && alone == 23 &&
           start == 22 && fewer == 18;
}

int main(void) {
    const uint64_t loaded = kweldabe_load(book, sizeof book);
    if ((loaded & 0xff) != 0) {
        printf("book %u at %llu\n", (unsigned)(loaded & 0xff), (unsigned long long)(loaded >> 8));
        return 1;
    }
    if (kweldabe_blank(book, sizeof book, history, sizeof history, levels, sizeof levels) != 0) {
        return 1;
    }
    const uint64_t ran = kweldabe_run(book, sizeof book, history, sizeof history, levels, sizeof levels,
                                      requests, sizeof requests, answers, sizeof answers);
    for (size_t i = 0; i < sizeof answers; i++) {
        printf("%zu %u\n", i + 1, (unsigned)answers[i]);
    }
    printf("granted %u refused %u\n", (unsigned)(ran >> 8 & 0xffffff), (unsigned)(ran >> 32 & 0xffffff));
    const int same = memcmp(answers, expected, sizeof expected) == 0;
    const int counted = ran == ((uint64_t)5 << 32 | 5 << 8);
    return same && counted && lobby_is_open() && steps_alter() && levels_are_held() && clearance_is_told() && jobs_have_an_order() ? 0 : 1;
}
