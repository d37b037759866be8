/*
 * The stand examples of the scope paper, each refusal on either side, nearest
 * in rooms of every length and of empty trees, and the radius of a length. Exit
 * status 1 at a difference.
 */
#include "oulavisok.h"

#include <math.h>
#include <stdio.h>
#include <string.h>

#define ROOM 16

static int cases, wrong;

static void expect(const char *name, int holds)
{
    cases++;
    if (!holds) {
        wrong++;
        printf("WRONG: %s\n", name);
    }
}

#define LEN(list) (sizeof(list) / sizeof(list)[0])
#define TREE(starts, stems, items, coords) \
    { starts, LEN(starts), stems, LEN(stems), items, LEN(items), coords, LEN(coords) }
#define ONE_LEAF(starts, items, coords) \
    { starts, LEN(starts), NULL, 0, items, LEN(items), coords, LEN(coords) }

static const uint32_t a_left_starts[] = {0, 2, 4}, a_left_items[] = {10, 11, 12, 13};
static const double a_left_stems[] = {0, 4}, a_left_coords[] = {1, 4, 4, 7, 1, 2, 6, 1};
static const oul_tree a_left = TREE(a_left_starts, a_left_stems, a_left_items, a_left_coords);

static const uint32_t a_right_starts[] = {0, 2}, a_right_items[] = {20, 21};
static const double a_right_coords[] = {1, 7, 5, 1};
static const oul_tree a_right = ONE_LEAF(a_right_starts, a_right_items, a_right_coords);

static const uint32_t b_starts[] = {0, 1, 2}, b_left_items[] = {1, 2}, b_right_items[] = {3, 4};
static const double b_coords[] = {-5, 5}, b_left_stems[] = {0, 0}, b_right_stems[] = {0, 3};
static const oul_tree b_left = TREE(b_starts, b_left_stems, b_left_items, b_coords);
static const oul_tree b_right = TREE(b_starts, b_right_stems, b_right_items, b_coords);

static const uint32_t one_start[] = {0, 1}, item_1[] = {1}, item_7[] = {7}, items_56[] = {5, 6};
static const double far_coord[] = {-1e200}, away_coord[] = {1e200}, zero[] = {0}, tenth[] = {0.1};
static const double c_coords[] = {-1, 1}, c_stems[] = {0, 0};
static const oul_tree far_left = ONE_LEAF(one_start, item_1, far_coord);
static const oul_tree away = ONE_LEAF(one_start, item_7, away_coord);
static const oul_tree at_zero = ONE_LEAF(one_start, item_1, zero);
static const oul_tree at_tenth = ONE_LEAF(one_start, item_7, tenth);
static const oul_tree around = TREE(b_starts, c_stems, items_56, c_coords);

/* Rooms of ROOM places with a pattern in them, of which fewer may be lent. */
static uint32_t left[ROOM], right[ROOM];
static double distance[ROOM];

static oul_rooms rooms(size_t room)
{
    oul_rooms lent = {left, room, right, room, distance, room};
    memset(left, 0xa5, sizeof left);
    memset(right, 0xa5, sizeof right);
    memset(distance, 0xa5, sizeof distance);
    return lent;
}

typedef struct {
    uint32_t left, right;
    double distance;
} pair;

/* Whether the first places hold these pairs and the others the pattern. */
static int stored(size_t count, const pair *due)
{
    uint32_t l[ROOM], r[ROOM];
    double d[ROOM];
    size_t i;
    memset(l, 0xa5, sizeof l);
    memset(r, 0xa5, sizeof r);
    memset(d, 0xa5, sizeof d);
    for (i = 0; i < count; i++) {
        l[i] = due[i].left;
        r[i] = due[i].right;
        d[i] = due[i].distance;
    }
    return memcmp(l, left, sizeof l) == 0 && memcmp(r, right, sizeof r) == 0
        && memcmp(d, distance, sizeof d) == 0;
}

static int told(oul_answer answer, uint64_t found, uint64_t visits, uint64_t measured,
                uint64_t ruled_out, uint64_t taken_whole)
{
    return answer.side == 0 && answer.found == found && answer.visits == visits
        && answer.measured == measured && answer.ruled_out == ruled_out
        && answer.taken_whole == taken_whole;
}

static const pair a_up_to_10[] = {{11, 21, 10}, {12, 20, 10}, {13, 21, 0}};
static const pair a_under_10[] = {{13, 21, 0}};
static const pair b_found[] = {{1, 3, 0}, {2, 4, 0}};
static const pair c1_found[] = {{1, 5, 1}, {1, 6, 1}};
static const pair c2_found[] = {{1, 7, INFINITY}};

static void examples(void)
{
    oul_answer t;
    uint32_t n;

    n = oul_join_pairs_up_to(2, 10, a_left, a_right, rooms(ROOM), &t);
    expect("A1", n == 0 && stored(3, a_up_to_10) && told(t, 3, 3, 8, 0, 0));
    n = oul_join_pairs_under(2, 10, a_left, a_right, rooms(ROOM), &t);
    expect("A2", n == 0 && stored(1, a_under_10) && told(t, 1, 3, 8, 0, 0));
    n = oul_join_pairs_under(2, 0, a_left, a_right, rooms(ROOM), &t);
    expect("A3", n == 0 && stored(0, NULL) && told(t, 0, 1, 0, 8, 0));
    n = oul_join_pairs_up_to(2, NAN, a_left, a_right, rooms(ROOM), &t);
    expect("A4", n == 0 && stored(0, NULL) && told(t, 0, 3, 8, 0, 0));
    n = oul_join_pairs_up_to(2, -1, a_left, a_right, rooms(ROOM), &t);
    expect("A5", n == 0 && stored(0, NULL) && told(t, 0, 1, 0, 8, 0));
    n = oul_join_counts_up_to(2, INFINITY, a_left, a_right, &t);
    expect("A6", n == 0 && told(t, 8, 1, 0, 0, 8));
    n = oul_join_counts_under(2, INFINITY, a_left, a_right, &t);
    expect("A7", n == 0 && told(t, 8, 3, 8, 0, 0));
    n = oul_join_pairs_up_to(2, 10, a_left, a_right, rooms(2), &t);
    expect("A9", n == OUL_FULL && stored(2, a_up_to_10) && told(t, 3, 3, 8, 0, 0));

    n = oul_join_pairs_up_to(1, 1, b_left, b_right, rooms(ROOM), &t);
    expect("B1", n == 0 && stored(2, b_found) && told(t, 2, 7, 3, 1, 0));
    n = oul_join_pairs_up_to(1, 9, b_left, b_right, rooms(ROOM), &t);
    expect("B2", n == 0 && stored(2, b_found) && told(t, 2, 7, 4, 0, 0));
    n = oul_join_pairs_under(1, 9, b_left, b_right, rooms(ROOM), &t);
    expect("B3", n == 0 && stored(2, b_found) && told(t, 2, 7, 3, 1, 0));

    n = oul_join_pairs_up_to(1, 1, at_zero, around, rooms(ROOM), &t);
    expect("C1", n == 0 && stored(2, c1_found) && told(t, 2, 3, 2, 0, 0));
    n = oul_join_pairs_up_to(1, INFINITY, far_left, away, rooms(ROOM), &t);
    expect("C2, up to", n == 0 && stored(1, c2_found) && told(t, 1, 1, 1, 0, 0));
    n = oul_join_pairs_under(1, INFINITY, far_left, away, rooms(ROOM), &t);
    expect("C2, under", n == 0 && stored(0, NULL) && told(t, 0, 1, 1, 0, 0));
    n = oul_join_pairs_up_to(1, 0.01, at_zero, at_tenth, rooms(ROOM), &t);
    expect("C3", n == 0 && stored(0, NULL) && told(t, 0, 1, 1, 0, 0));
}

/* For nearest the rooms are `right` and `distance`. */
static oul_nearest_rooms near_rooms(size_t room)
{
    oul_rooms all = rooms(room);
    oul_nearest_rooms lent = {all.right, room, all.distance, room};
    return lent;
}

typedef struct {
    uint32_t item;
    double distance;
} closest;

/* Whether the first places hold these answers and the others the pattern. */
static int kept(size_t count, const closest *due)
{
    uint32_t r[ROOM];
    double d[ROOM];
    size_t i;
    memset(r, 0xa5, sizeof r);
    memset(d, 0xa5, sizeof d);
    for (i = 0; i < count; i++) {
        r[i] = due[i].item;
        d[i] = due[i].distance;
    }
    return memcmp(r, right, sizeof r) == 0 && memcmp(d, distance, sizeof d) == 0;
}

static const closest a8[] = {{20, 16}, {21, 10}, {20, 10}, {21, 0}};
static const closest b_near[] = {{3, 0}, {4, 0}};
static const closest c1_near[] = {{6, 1}};
static const closest c2_near[] = {{0, INFINITY}};

static void nearest(void)
{
    static const uint32_t no_leaf[] = {0}, no_point[] = {0, 0, 0};
    static const double any_pivot[] = {0, 0};
    oul_tree empty[] = {
        {no_leaf, 1, NULL, 0, NULL, 0, NULL, 0},
        {no_point, 2, NULL, 0, NULL, 0, NULL, 0},
        {no_point, 3, any_pivot, 2, NULL, 0, NULL, 0},
    };
    oul_nearest_rooms none = {NULL, 0, NULL, 0}, uneven;
    oul_answer t;
    uint32_t n;
    size_t i, room;

    for (room = 4; room <= ROOM; room++) {
        n = oul_join_nearest(2, a_left, a_right, near_rooms(room), &t);
        expect("A8", n == 0 && kept(4, a8) && told(t, 4, 3, 8, 0, 0));
    }
    n = oul_join_nearest(1, b_left, b_right, near_rooms(ROOM), &t);
    expect("B, nearest", n == 0 && kept(2, b_near) && told(t, 2, 7, 3, 1, 0));
    n = oul_join_nearest(1, at_zero, around, near_rooms(ROOM), &t);
    expect("C1, nearest", n == 0 && kept(1, c1_near) && told(t, 1, 3, 2, 0, 0));
    n = oul_join_nearest(1, far_left, away, near_rooms(ROOM), &t);
    expect("C2, nearest", n == 0 && kept(1, c2_near) && told(t, 1, 1, 1, 0, 0));

    for (room = 0; room < 4; room++) {
        n = oul_join_nearest(2, a_left, a_right, near_rooms(room), &t);
        expect("nearest, refusal 9", n == OUL_FULL && kept(0, NULL) && told(t, 0, 0, 0, 0, 0));
    }
    uneven = near_rooms(ROOM), uneven.items_len = ROOM - 1;
    n = oul_join_nearest(2, a_left, a_right, uneven, &t);
    expect("nearest, refusal 8", n == OUL_ROOMS && kept(0, NULL) && told(t, 0, 0, 0, 0, 0));
    uneven = near_rooms(3), uneven.distance_len = 4;
    n = oul_join_nearest(2, a_left, a_right, uneven, &t);
    expect("nearest, 8 before 9", n == OUL_ROOMS && kept(0, NULL) && told(t, 0, 0, 0, 0, 0));

    for (i = 0; i < LEN(empty); i++) {
        n = oul_join_nearest(2, empty[i], a_right, near_rooms(ROOM), &t);
        expect("nearest, left empty", n == 0 && kept(0, NULL) && told(t, 0, 0, 0, 0, 0));
        n = oul_join_nearest(2, a_left, empty[i], near_rooms(ROOM), &t);
        expect("nearest, right empty", n == 0 && kept(0, NULL) && told(t, 0, 0, 0, 0, 0));
        near_rooms(0);
        n = oul_join_nearest(2, a_left, empty[i], none, &t);
        expect("nearest, no room needed", n == 0 && kept(0, NULL) && told(t, 0, 0, 0, 0, 0));
        n = oul_join_nearest(2, empty[i], empty[i], none, &t);
        expect("nearest, both empty", n == 0 && kept(0, NULL) && told(t, 0, 0, 0, 0, 0));
        uneven = near_rooms(ROOM), uneven.items_len = 0;
        n = oul_join_nearest(2, empty[i], a_right, uneven, &t);
        expect("nearest, empty, 8", n == OUL_ROOMS && kept(0, NULL) && told(t, 0, 0, 0, 0, 0));
    }
}

/* All five joins of two trees are refused under this number and side. */
static void refused(uint32_t number, uint64_t side, uint32_t k, oul_tree l, oul_tree r)
{
    oul_answer none = {side, 0, 0, 0, 0, 0}, t;
    char name[32];
    uint32_t n;
    snprintf(name, sizeof name, "refusal %u, side %u", (unsigned)number, (unsigned)side);
    n = oul_join_pairs_up_to(k, 10, l, r, rooms(ROOM), &t);
    expect(name, n == number && memcmp(&t, &none, sizeof t) == 0 && stored(0, NULL));
    n = oul_join_pairs_under(k, 10, l, r, rooms(ROOM), &t);
    expect(name, n == number && memcmp(&t, &none, sizeof t) == 0 && stored(0, NULL));
    n = oul_join_counts_up_to(k, 10, l, r, &t);
    expect(name, n == number && memcmp(&t, &none, sizeof t) == 0);
    n = oul_join_counts_under(k, 10, l, r, &t);
    expect(name, n == number && memcmp(&t, &none, sizeof t) == 0);
    n = oul_join_nearest(k, l, r, near_rooms(ROOM), &t);
    expect(name, n == number && memcmp(&t, &none, sizeof t) == 0 && kept(0, NULL));
    n = oul_join_nearest(k, l, r, near_rooms(1), &t);
    expect(name, n == number && memcmp(&t, &none, sizeof t) == 0 && kept(0, NULL));
}

/* A tree refused stands left, then right. */
static void either_side(uint32_t number, oul_tree bad)
{
    refused(number, 0, 2, bad, a_right);
    refused(number, 1, 2, a_right, bad);
}

static void refusals(void)
{
    static const uint32_t falls[] = {0, 5, 4};
    static const double not_a_number[] = {1, 4, NAN, 7, 1, 2, 6, 1};
    static const double no_pivot[] = {0, -INFINITY}, low_pivot[] = {0, 3};
    oul_tree bad;
    oul_rooms uneven;
    oul_answer t;
    uint32_t n;

    refused(OUL_AXES, 0, 0, a_left, a_right);
    refused(OUL_AXES, 0, 5, a_left, a_right);
    bad = a_left, bad.starts = NULL, bad.starts_len = 0;
    either_side(OUL_SIZE, bad);
    bad = a_left, bad.coords_len = 7;
    either_side(OUL_LENGTH, bad);
    bad = a_left, bad.starts = falls;
    either_side(OUL_STARTS, bad);
    bad = a_left, bad.coords = not_a_number;
    either_side(OUL_COORDINATE, bad);
    bad = a_left, bad.stems = no_pivot;
    either_side(OUL_PIVOT, bad);
    bad = a_left, bad.stems = low_pivot;
    either_side(OUL_ORDER, bad);

    uneven = rooms(ROOM), uneven.right_len = ROOM - 1;
    n = oul_join_pairs_up_to(2, 10, a_left, a_right, uneven, &t);
    expect("refusal 8", n == OUL_ROOMS && stored(0, NULL) && told(t, 0, 0, 0, 0, 0));
    uneven = rooms(0), uneven.left = NULL, uneven.right = NULL, uneven.distance = NULL;
    n = oul_join_pairs_up_to(2, 10, a_left, a_right, uneven, &t);
    expect("refusal 9, no room", n == OUL_FULL && stored(0, NULL) && told(t, 3, 3, 8, 0, 0));
}

static void radii(void)
{
    expect("radius of -2", oul_radius_of(-2) == 4);
    expect("radius of -0", oul_radius_of(-0.0) == 0 && !signbit(oul_radius_of(-0.0)));
    expect("radius of NaN", isnan(oul_radius_of(NAN)));
    expect("radius of 1e200", oul_radius_of(1e200) == INFINITY);
}

int main(void)
{
    examples();
    nearest();
    refusals();
    radii();
    printf("%d cases, %d wrong\n", cases, wrong);
    return wrong != 0;
}
