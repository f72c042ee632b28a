/* A host program in C: reads a small scene, and prints its names, its finishes, its index, what its mixtures show, where its order
 * mattered, what is new in a later save, its tidy text, its glass moved, its sorted text, two edits of it joined and a few float
 * answers. */
#include "kribbelsteen.h"

#include <math.h>
#include <stdio.h>
#include <string.h>

#define ROOM 8

static uint32_t records[ROOM * KRIBBELSTEEN_RECORD];
static double reals[32];
static uint32_t pairs[ROOM * KRIBBELSTEEN_PAIR];

static void print_scene(uint32_t mode, const char *scene) {
    const uint8_t *text = (const uint8_t *)scene;
    size_t len = strlen(scene), answer[3], name[2], finish[2], number;
    uint32_t reason = kribbelsteen_read(mode, text, len, records, ROOM * KRIBBELSTEEN_RECORD, reals, 32, pairs,
                                        ROOM * KRIBBELSTEEN_PAIR, answer);
    if (reason != KRIBBELSTEEN_ACCEPTED) {
        printf("refused=%u place=%zu\n", (unsigned)reason, answer[0]);
        return;
    }
    printf("primitives=%zu reals=%zu\n", answer[1], answer[2]);
    for (number = 1; number <= answer[1]; number++) {
        const uint32_t *record = records + KRIBBELSTEEN_RECORD * (number - 1);
        kribbelsteen_name(text, len, records, ROOM * KRIBBELSTEEN_RECORD, answer[1], number, name);
        kribbelsteen_finish(records, ROOM * KRIBBELSTEEN_RECORD, answer[1], number, answer[1], finish);
        printf("no=%zu line=%u mod=%u type=%u name=%.*s finish=%zu links=%zu\n", number, (unsigned)record[KRIBBELSTEEN_LINE],
               (unsigned)record[KRIBBELSTEEN_MODIFIER], (unsigned)record[KRIBBELSTEEN_TYPE], (int)name[1], scene + name[0],
               finish[0], finish[1]);
    }
    printf("name 9: %u\n", (unsigned)kribbelsteen_name(text, len, records, ROOM * KRIBBELSTEEN_RECORD, answer[1], 9, name));
    printf("name, 9 stated: %u\n", (unsigned)kribbelsteen_name(text, len, records, ROOM * KRIBBELSTEEN_RECORD, 9, 1, name));
    printf("finish 3, no links: %u", (unsigned)kribbelsteen_finish(records, ROOM * KRIBBELSTEEN_RECORD, answer[1], 3, 0, finish));
    printf(" %zu %zu\n", finish[0], finish[1]);
}

static void print_index(const char *scene, size_t entries) {
    static uint32_t index[KRIBBELSTEEN_INDEX + 1];
    size_t answer[4], at;
    uint32_t reason;
    index[KRIBBELSTEEN_INDEX] = 9;
    reason = kribbelsteen_read_indexed(KRIBBELSTEEN_NEW, (const uint8_t *)scene, strlen(scene), records, ROOM * KRIBBELSTEEN_RECORD,
                                       reals, 32, pairs, ROOM * KRIBBELSTEEN_PAIR, index, entries, answer);
    printf("indexed=%u place=%zu primitives=%zu reals=%zu looked=%zu\n", (unsigned)reason, answer[0], answer[1], answer[2],
           answer[3]);
    for (at = 0; at < entries; at++) {
        if (index[at] != 0)
            printf("entry %zu: %u\n", at, (unsigned)index[at]);
    }
}

static void print_shown(const char *scene, size_t room, size_t pair_room) {
    uint32_t list[ROOM];
    size_t counts[3], listed[1], number, at;
    uint32_t reason = kribbelsteen_read(KRIBBELSTEEN_NEW, (const uint8_t *)scene, strlen(scene), records, ROOM * KRIBBELSTEEN_RECORD,
                                        reals, 32, pairs, pair_room, counts);
    printf("mixed=%u place=%zu\n", (unsigned)reason, counts[0]);
    for (number = 1; number <= counts[1]; number++) {
        const uint32_t *pair = pairs + KRIBBELSTEEN_PAIR * (number - 1);
        reason = kribbelsteen_shown(records, ROOM * KRIBBELSTEEN_RECORD, pairs, pair_room, counts[1], number, list, room, listed);
        printf("no=%zu pair=%u,%u listed=%u %zu:", number, (unsigned)pair[KRIBBELSTEEN_FOREGROUND],
               (unsigned)pair[KRIBBELSTEEN_BACKGROUND], (unsigned)reason, listed[0]);
        for (at = 0; at < room; at++)
            printf(" %u", (unsigned)list[at]);
        printf("\n");
    }
    reason = kribbelsteen_shown(records, ROOM * KRIBBELSTEEN_RECORD, pairs, pair_room, counts[1], number, list, room, listed);
    printf("shown %zu: %u %zu", number, (unsigned)reason, listed[0]);
    reason = kribbelsteen_shown(records, ROOM * KRIBBELSTEEN_RECORD, pairs, 3, 2, 1, list, room, listed);
    printf(", pairs short: %u %zu\n", (unsigned)reason, listed[0]);
}

static void print_order(const char *scene) {
    const uint8_t *text = (const uint8_t *)scene;
    size_t len = strlen(scene), counts[3], held[2], name[2], first, second;
    uint32_t outcome;
    kribbelsteen_read(KRIBBELSTEEN_NEW, text, len, records, ROOM * KRIBBELSTEEN_RECORD, reals, 32, pairs, ROOM * KRIBBELSTEEN_PAIR,
                      counts);
    for (first = 1; first <= counts[1]; first++) {
        for (second = counts[1]; second > first; second--) {
            outcome = kribbelsteen_mattered(text, len, records, ROOM * KRIBBELSTEEN_RECORD, counts[1], second, first, held);
            printf("order of %zu and %zu: %u, %zu %zu", first, second, (unsigned)outcome, held[0], held[1]);
            if (outcome == KRIBBELSTEEN_HELD) {
                kribbelsteen_name(text, len, records, ROOM * KRIBBELSTEEN_RECORD, counts[1], held[1], name);
                printf(", %.*s", (int)name[1], scene + name[0]);
            }
            printf("\n");
        }
    }
    for (first = 0; first <= 1; first++) {
        outcome = kribbelsteen_mattered(text, len, records, ROOM * KRIBBELSTEEN_RECORD, counts[1], first, 1, held);
        printf("order of %zu and 1: %u, %zu %zu\n", first, (unsigned)outcome, held[0], held[1]);
    }
    outcome = kribbelsteen_mattered(text, len, records, ROOM * KRIBBELSTEEN_RECORD, ROOM + 1, 1, 2, held);
    printf("order, %d stated: %u, %zu %zu\n", ROOM + 1, (unsigned)outcome, held[0], held[1]);
    records[KRIBBELSTEEN_ALIAS] = 1;
    outcome = kribbelsteen_mattered(text, len, records, ROOM * KRIBBELSTEEN_RECORD, counts[1], 2, 3, held);
    printf("order, 1 its own alias: %u, %zu %zu\n", (unsigned)outcome, held[0], held[1]);
}

static uint32_t later_records[ROOM * KRIBBELSTEEN_RECORD];
static double later_reals[32];
static uint32_t order[2 * ROOM], later_order[2 * ROOM], scratch[ROOM];

static void print_changes(const char *left, const char *right) {
    static const char *const states[] = {"", "left", "right", "changed"};
    const uint8_t *texts[2] = {(const uint8_t *)left, (const uint8_t *)right};
    size_t left_len = strlen(left), right_len = strlen(right), answer[6], name[2];
    size_t line[6] = {0, 0, 0, 0, 0, 0}, by_keys[4] = {0, 0, 0, 0};
    uint32_t reason = kribbelsteen_read_both(KRIBBELSTEEN_NEW, texts[0], left_len, records, ROOM * KRIBBELSTEEN_RECORD, reals, 32,
                                             texts[1], right_len, later_records, ROOM * KRIBBELSTEEN_RECORD, later_reals, 32, answer);
    if (reason != KRIBBELSTEEN_ACCEPTED) {
        printf("scene=%s refused=%u place=%zu\n", answer[0] == KRIBBELSTEEN_LEFT ? "left" : "right", (unsigned)reason, answer[1]);
        return;
    }
    kribbelsteen_order_names(texts[0], left_len, records, answer[2] * KRIBBELSTEEN_RECORD, order, 2 * answer[2], scratch, ROOM);
    kribbelsteen_order_names(texts[1], right_len, later_records, answer[4] * KRIBBELSTEEN_RECORD, later_order, 2 * answer[4], scratch,
                             ROOM);
    while (kribbelsteen_next_ordered(texts[0], left_len, records, answer[2] * KRIBBELSTEEN_RECORD, reals, answer[3], order,
                                     2 * answer[2], texts[1], right_len, later_records, answer[4] * KRIBBELSTEEN_RECORD, later_reals,
                                     answer[5], later_order, 2 * answer[4], line)) {
        if (line[2] == KRIBBELSTEEN_LEFT)
            kribbelsteen_name(texts[0], left_len, records, ROOM * KRIBBELSTEEN_RECORD, answer[2], line[3], name);
        else
            kribbelsteen_name(texts[1], right_len, later_records, ROOM * KRIBBELSTEEN_RECORD, answer[4], line[3], name);
        printf("name=%.*s nth=%zu state=%s\n", (int)name[1], (const char *)texts[line[2]] + name[0], line[4], states[line[5]]);
        kribbelsteen_next_line(texts[0], left_len, records, answer[2] * KRIBBELSTEEN_RECORD, reals, answer[3], texts[1], right_len,
                               later_records, answer[4] * KRIBBELSTEEN_RECORD, later_reals, answer[5], by_keys);
        if (memcmp(line + 2, by_keys, sizeof by_keys) != 0)
            printf("another line by keys\n");
    }
}

static void print_tidy(const char *scene, size_t room) {
    static uint8_t out[512];
    const uint8_t *text = (const uint8_t *)scene;
    size_t len = strlen(scene), counts[3], answer[2];
    uint32_t reason;
    kribbelsteen_read(KRIBBELSTEEN_NEW, text, len, records, ROOM * KRIBBELSTEEN_RECORD, reals, 32, pairs, ROOM * KRIBBELSTEEN_PAIR,
                      counts);
    reason = kribbelsteen_write(KRIBBELSTEEN_NEW, text, len, records, ROOM * KRIBBELSTEEN_RECORD, reals, 32, out, room, answer);
    printf("written=%u place=%zu length=%zu\n%.*s", (unsigned)reason, answer[0], answer[1], (int)answer[1], (const char *)out);
    reals[31] = -0.0;
    reason = kribbelsteen_write(KRIBBELSTEEN_NEW, text, len, records, ROOM * KRIBBELSTEEN_RECORD, reals, 32, out, room, answer);
    printf("written=%u place=%zu length=%zu\n", (unsigned)reason, answer[0], answer[1]);
}

static void print_moved(uint32_t direction, const char *scene, size_t real_room, size_t room) {
    static uint8_t out[512];
    const uint8_t *text = (const uint8_t *)scene;
    size_t len = strlen(scene), counts[3], answer[2];
    uint32_t reason;
    kribbelsteen_read(KRIBBELSTEEN_NEW, text, len, records, ROOM * KRIBBELSTEEN_RECORD, reals, real_room, pairs,
                      ROOM * KRIBBELSTEEN_PAIR, counts);
    reason = kribbelsteen_move_glass(KRIBBELSTEEN_NEW, direction, text, len, records, ROOM * KRIBBELSTEEN_RECORD, reals, real_room, out,
                                     room, answer);
    printf("moved=%u place=%zu length=%zu\n%.*s", (unsigned)reason, answer[0], answer[1], (int)answer[1], (const char *)out);
}

static void print_sorted(const char *scene, size_t room) {
    static uint8_t out[512];
    const uint8_t *text = (const uint8_t *)scene;
    size_t len = strlen(scene), counts[3], answer[2];
    uint32_t reason;
    kribbelsteen_read(KRIBBELSTEEN_NEW, text, len, records, ROOM * KRIBBELSTEEN_RECORD, reals, 32, pairs, ROOM * KRIBBELSTEEN_PAIR,
                      counts);
    reason = kribbelsteen_sort(KRIBBELSTEEN_NEW, text, len, records, ROOM * KRIBBELSTEEN_RECORD, reals, 32, out, room, answer);
    printf("sorted=%u place=%zu length=%zu\n%.*s", (unsigned)reason, answer[0], answer[1], (int)answer[1], (const char *)out);
    if (reason == KRIBBELSTEEN_LAST_LINE_NOT_ENDED || reason == KRIBBELSTEEN_TWO_ON_A_LINE)
        printf("cannot be cut\n");
    reals[31] = -0.0;
    reason = kribbelsteen_sort(KRIBBELSTEEN_NEW, text, len, records, ROOM * KRIBBELSTEEN_RECORD, reals, 32, out, room, answer);
    printf("sorted=%u place=%zu length=%zu\n", (unsigned)reason, answer[0], answer[1]);
}

static void print_joined(const char *base, const char *left, const char *right, const char *typed, size_t room) {
    static uint8_t out[512];
    const uint8_t *texts[3] = {(const uint8_t *)base, (const uint8_t *)left, (const uint8_t *)right};
    size_t answer[5], at;
    uint32_t reason;
    memset(out, 9, sizeof out);
    if (typed == NULL)
        reason = kribbelsteen_join(KRIBBELSTEEN_NEW, texts[0], strlen(base), texts[1], strlen(left), texts[2], strlen(right), records,
                                   ROOM * KRIBBELSTEEN_RECORD, reals, 32, out, room, answer);
    else
        reason = kribbelsteen_check_join(KRIBBELSTEEN_NEW, texts[0], strlen(base), texts[1], strlen(left), texts[2], strlen(right),
                                         (const uint8_t *)typed, strlen(typed), records, ROOM * KRIBBELSTEEN_RECORD, reals, 32, out,
                                         room, answer);
    printf("%s=%u text=%zu place=%zu length=%zu primitives=%zu reals=%zu\n%.*s", typed == NULL ? "joined" : "checked",
           (unsigned)reason, answer[0], answer[1], answer[2], answer[3], answer[4], (int)answer[2], (const char *)out);
    for (at = answer[2]; at < room; at++) {
        if (out[at] != 0)
            printf("byte %zu is left\n", at);
    }
    for (at = answer[3] * KRIBBELSTEEN_RECORD; at < ROOM * KRIBBELSTEEN_RECORD; at++) {
        if (records[at] != 0)
            printf("entry %zu is left\n", at);
    }
}

static void print_words(const char *text) {
    size_t at = 0, word[2];
    for (;;) {
        kribbelsteen_next_word((const uint8_t *)text, strlen(text), at, word);
        printf("word %zu %zu\n", word[0], word[1]);
        if (word[1] == 0)
            return;
        at = word[0] + word[1];
    }
}

static void print_floats(void) {
    const double ray[6] = {0, 0, -5, 0, 0, 1}, beside[6] = {2, 0, -5, 0, 0, 1}, still[6] = {0, 0, -5, 0, 0, 0};
    const double sphere[4] = {0, 0, 0, 1}, ring[8] = {0, 0, 1, 0, 0, 1, 0, 0.5};
    const double leaving[6] = {0, 0, -0.0009765625, 0, 0, 1};
    const double square[12] = {-1, -1, 0, 1, -1, 0, 1, 1, 0, -1, 1, 0};
    double answer[3];
    uint32_t kind;
    kind = kribbelsteen_sphere_above(ray, sphere, 0, answer);
    printf("sphere %u %g\n", (unsigned)kind, answer[0]);
    kind = kribbelsteen_sphere_above(beside, sphere, 0, answer);
    printf("sphere %u %g\n", (unsigned)kind, answer[0]);
    kind = kribbelsteen_sphere_above(still, sphere, 0, answer);
    printf("sphere %u %g\n", (unsigned)kind, answer[0]);
    kind = kribbelsteen_ring_above(ray, ring, 0, answer);
    printf("ring %u %g\n", (unsigned)kind, answer[0]);
    kind = kribbelsteen_ring_above(beside, ring, 0, answer);
    printf("ring %u %g\n", (unsigned)kind, answer[0]);
    kind = kribbelsteen_polygon_above(ray, square, 12, 0, answer);
    printf("polygon %u %g\n", (unsigned)kind, answer[0]);
    kind = kribbelsteen_polygon_above(beside, square, 12, 0, answer);
    printf("polygon %u %g\n", (unsigned)kind, answer[0]);
    kind = kribbelsteen_polygon_above(ray, square, 11, 0, answer);
    printf("polygon %u %g\n", (unsigned)kind, answer[0]);
    kind = kribbelsteen_fresnel(1, 1, 3, answer);
    printf("fresnel %u %g %g %g\n", (unsigned)kind, answer[0], answer[1], answer[2]);
    kind = kribbelsteen_fresnel(0.5, 2, 1, answer);
    printf("fresnel %u %g %g %g\n", (unsigned)kind, answer[0], answer[1], answer[2]);
    kind = kribbelsteen_fresnel(0, 1, 1.5, answer);
    printf("fresnel %u %g %g %g\n", (unsigned)kind, answer[0], answer[1], answer[2]);
    kind = kribbelsteen_fresnel(0, 1.5, 1.5, answer);
    printf("fresnel %u %g %g %g\n", (unsigned)kind, answer[0], answer[1], answer[2]);
    kind = kribbelsteen_pane_factors(0.5, 0.5, 0, answer);
    printf("pane %u %g %g\n", (unsigned)kind, answer[0], answer[1]);
    kind = kribbelsteen_pane_factors(1, 0.5, 1, answer);
    printf("pane %u %g %g\n", (unsigned)kind, answer[0], answer[1]);
    kind = kribbelsteen_transmissivity(0.88, answer);
    printf("transmissivity %u %.3f\n", (unsigned)kind, answer[0]);
    kind = kribbelsteen_transmissivity(0, answer);
    printf("transmissivity %u %g\n", (unsigned)kind, answer[0]);
    kind = kribbelsteen_sphere(leaving, sphere, answer);
    printf("leaving, sphere %u %g\n", (unsigned)kind, answer[0]);
    kind = kribbelsteen_ring(leaving, ring, answer);
    printf("leaving, ring %u %g\n", (unsigned)kind, answer[0]);
    kind = kribbelsteen_polygon(leaving, square, 12, answer);
    printf("leaving, polygon %u %g\n", (unsigned)kind, answer[0]);
    kind = kribbelsteen_polygon_above(leaving, square, 12, 0, answer);
    printf("leaving, polygon above 0: %u %g\n", (unsigned)kind, answer[0]);
    kind = kribbelsteen_sphere_above(ray, sphere, -1, answer);
    printf("sphere above -1: %u %g\n", (unsigned)kind, answer[0]);
    printf("root %.17g\n", kribbelsteen_root(2));
    printf("root of -1 is %s\n", isnan(kribbelsteen_root(-1)) ? "none" : "a number");
}

static void print_screen(const char *scene) {
    const double ray[6] = {0.5, 0.5, -5, 0, 0, 2};
    double answer[1];
    size_t counts[3], number;
    kribbelsteen_read(KRIBBELSTEEN_NEW, (const uint8_t *)scene, strlen(scene), records, ROOM * KRIBBELSTEEN_RECORD, reals, 32, pairs,
                      ROOM * KRIBBELSTEEN_PAIR, counts);
    for (number = 1; number <= counts[1] + 1; number++) {
        uint32_t kind = kribbelsteen_polygon_in_table(ray, records, ROOM * KRIBBELSTEEN_RECORD, counts[1], number, reals, 32, answer);
        printf("screen %zu: %u %g", number, (unsigned)kind, answer[0]);
        kind = kribbelsteen_polygon_in_table_above(ray, records, ROOM * KRIBBELSTEEN_RECORD, counts[1], number, reals, 32, 2.5, answer);
        printf(", above 2.5: %u %g\n", (unsigned)kind, answer[0]);
    }
}

int main(void) {
    const char *sample = "# a lamp before a wall\n"
                         "void plastic wall 0 0 5 .5 .5 .5 0 0\n"
                         "void plastic wall 0 0 5 .2 .2 .2 0 0\n"
                         "wall sphere lamp 0 0 4 0 0 0 1\n"
                         "void alias trim wall\n";
    const char *later = "void plastic wall 0 0 5 .5 .5 .5 0 0\n"
                        "wall sphere lamp 0 0 4 0 0 0 1\n"
                        "void light bulb 0 0 3 1 1 1\n";
    const char *mixed = "void plastic oak 0 0 5 .5 .4 .2 0 0\n"
                        "oak mixfunc inlay 4 void ash v f.cal 0 0\n"
                        "void alias border inlay\n"
                        "border sphere knob 0 0 4 0 0 0 1\n"
                        "inlay sphere foot 0 0 4 0 0 0 1\n"
                        "void plastic ash 0 0 5 .7 .6 .5 0 0\n";
    const char *desk = "void plastic deskfront 0 0 5 .52 .36 .2 .03 .1\n"
                       "deskfront sphere left_knob 0 0 4 0 0 0 .02\n"
                       "void metal deskfront 0 0 5 .5 .5 .52 .8 .05\n"
                       "deskfront sphere right_knob 0 0 4 1 0 0 .02\n";
    const char *panes = "void glass clear 0 0 3 .96 .96 .96\nvoid glass grey 0 0 4 .5 .5 .5 1.52\n";
    const char *old = "void antimatter hole 1 void 0 0\nhole alias slot hole\n";
    const char *plain = "void plastic wall 0 0 5 .5 .5 .5 0 0\nwall sphere knob 0 0 4 0 0 0 1\n";
    const char *painted = "void plastic wall 0 0 5 .2 .2 .2 0 0\nwall sphere knob 0 0 4 0 0 0 1\n";
    const char *lit = "void light bulb 0 0 3 1 1 1\nvoid plastic wall 0 0 5 0.5 .5 .5 0 0\nwall sphere knob 0 0 4 0 0 0 1\n";
    const char *both = "void plastic wall 0 0 5 .2 .2 .2 0 0\nvoid light bulb 0 0 3 1 1 1.\nwall sphere knob 0 0 4 0 0 0 1\n";
    print_scene(KRIBBELSTEEN_NEW, sample);
    print_scene(KRIBBELSTEEN_NEW, "a sphere s 0 0 4 0 0 0 1");
    print_scene(KRIBBELSTEEN_NEW, "void sphere s 0 0 4 0 0 0 0");
    print_scene(KRIBBELSTEEN_NEW, "");
    print_scene(KRIBBELSTEEN_NEW, old);
    print_scene(2, old);
    print_scene(KRIBBELSTEEN_ARCHIVE, old);
    print_index(sample, KRIBBELSTEEN_INDEX + 1);
    print_index(sample, KRIBBELSTEEN_INDEX - 1);
    print_index("void", KRIBBELSTEEN_INDEX);
    print_shown(mixed, 2, ROOM * KRIBBELSTEEN_PAIR);
    print_shown(mixed, 1, ROOM * KRIBBELSTEEN_PAIR);
    print_shown(mixed, 1, ROOM * KRIBBELSTEEN_PAIR - 1);
    print_shown("void mixfunc m 4 m oak v f 0 0", 0, ROOM * KRIBBELSTEEN_PAIR);
    print_shown("void mixfunc m 4 m void v f 0 0", 0, ROOM * KRIBBELSTEEN_PAIR);
    print_order(desk);
    print_order(mixed);
    print_changes(sample, later);
    print_changes(later, sample);
    print_changes(sample, "!");
    print_changes("void", "!");
    print_changes("", "void mixfunc m 4 void m v f 0 0");
    print_tidy(sample, 512);
    print_tidy(sample, 16);
    print_moved(KRIBBELSTEEN_FORTH, panes, 8, 512);
    print_moved(2, panes, 7, 512);
    print_moved(KRIBBELSTEEN_BACK, panes, 7, 512);
    print_moved(KRIBBELSTEEN_BACK, panes, 7, 16);
    print_sorted(sample, 512);
    print_sorted(mixed, strlen(mixed));
    print_sorted(mixed, strlen(mixed) - 1);
    print_sorted("void light bulb 0 0 3 1 1 1\n\n# the end", 512);
    print_sorted("void light bulb 0 0 3 1 1 1\rvoid alias lamp bulb\n", 512);
    print_sorted("void", 512);
    print_joined(plain, painted, lit, NULL, 512);
    print_joined(plain, painted, lit, NULL, 16);
    print_joined(plain, painted, lit, both, strlen(both));
    print_joined(plain, painted, lit, both, strlen(both) - 1);
    print_joined(plain, painted, lit, painted, 512);
    print_joined(plain, painted, lit, "void", 512);
    print_joined(plain, painted, "a", NULL, 512);
    print_joined(sample, painted, lit, NULL, 512);
    print_joined("void light bulb 0 0 3 1 1 1", "void light bulb 0 0 3 1 2 1", "", both, 512);
    print_joined("void light bulb 0 0 3 1 1 1", "", "void light bulb 0 0 3 1 1 1 bulb light lamp 0 0 3 1 1 1", NULL, 512);
    print_words(" void\tlight ");
    print_floats();
    print_screen("void plastic trim 0 0 5 .2 .2 .2 0 0\n"
                 "trim polygon screen 0 0 9 0 0 0 2 0 0 0 2 0\n"
                 "trim polygon line 0 0 9 0 0 0 1 1 1 2 2 2\n");
    return 0;
}
