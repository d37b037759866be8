/*
 * Joins of two lent trees: pairs and counts, "up to" and "under" a radius, and
 * the nearest right point of each left one. A radius is a squared distance;
 * oul_radius_of makes one of a length. Distances are squared too.
 *
 * Link with liboulavisok.a (`rt lib` in crates/oulavisok writes it, for x86-64-v2).
 * The library allocates nothing, keeps nothing between calls and may be called
 * from several threads at once.
 *
 * A tree is four buffers:
 *   starts  leaf i holds the places from starts[i] up to starts[i + 1]; m leaves
 *           have m + 1 starts
 *   stems   the pivots: none if m < 2, else as many as the next power of two
 *           from m. Node 1 is the root, node s has children 2s and 2s + 1;
 *           entry 0 is unused
 *   items   the number of each point, in place order; n points
 *   coords  axis by axis: axis d of the point at place p is coords[d * n + p];
 *           k * n of them, k from 1 to 4
 *
 * Every function returns a refusal number, OUL_ANSWERED (0) for none. Trees are
 * checked before anything is done: the left wholly, then the right, then the
 * rooms; the lowest number wins within a tree.
 */
#ifndef OULAVISOK_H
#define OULAVISOK_H

#include <stddef.h>
#include <stdint.h>

#ifdef __cplusplus
extern "C" {
#endif

/*
 * Refusals 1 to 8 leave the rooms untouched, and nothing found and all totals
 * 0. So does refusal 9 of nearest, given before anything is done; refusal 9 of
 * pairs stores the first pairs that fit, in walk order, and tells the number
 * found and the totals of the whole walk.
 */
enum {
    OUL_ANSWERED = 0,
    OUL_AXES = 1,        /* k is not 1 to 4 */
    OUL_SIZE = 2,        /* no starts, over 4,097 starts, or over 65,536 items */
    OUL_LENGTH = 3,      /* stems or coords of the wrong length */
    OUL_STARTS = 4,      /* first start not 0, a start falls, last start not n,
                            or a leaf over 1,024 points */
    OUL_COORDINATE = 5,  /* a coordinate is NaN or infinite */
    OUL_PIVOT = 6,       /* a node over a leaf has pivot NaN or -inf */
    OUL_ORDER = 7,       /* a point of a node's left half is above the pivot, one
                            of its right half below it, or the pivot is +inf and
                            the right half holds a point */
    OUL_ROOMS = 8,       /* the rooms of one call differ in length */
    OUL_FULL = 9         /* more pairs pass than the rooms hold; nearest: both
                            trees hold points, and the rooms hold fewer answers
                            than the left tree has points */
};

/*
 * Each pointer must be valid for its length, in elements, and aligned for its
 * type. Trees are only read, and may share memory with one another. Nothing
 * else may write to them during the call.
 */
typedef struct {
    const uint32_t *starts;
    size_t starts_len;
    const double *stems;
    size_t stems_len;
    const uint32_t *items;
    size_t items_len;
    const double *coords;
    size_t coords_len;
} oul_tree;

/*
 * Where pairs are stored: left item, right item, squared distance. Of one
 * length. No room may overlap another, a tree or the answer. What lies beyond
 * the pairs stored is not touched, so it may be uninitialised.
 */
typedef struct {
    uint32_t *left;
    size_t left_len;
    uint32_t *right;
    size_t right_len;
    double *distance;
    size_t distance_len;
} oul_rooms;

/*
 * Where nearest answers are stored, one for each left point, in place order:
 * right item, squared distance. Of one length, and as with oul_rooms: nothing
 * overlaps, and what lies beyond the left number is not touched.
 */
typedef struct {
    uint32_t *items;
    size_t items_len;
    double *distance;
    size_t distance_len;
} oul_nearest_rooms;

typedef struct {
    uint64_t side;        /* of the tree refused: 0 left, 1 right; 0 for 0, 1, 8, 9 */
    uint64_t found;       /* pairs that pass, stored or not; nearest: answers stored */
    uint64_t visits;      /* node pairs examined */
    uint64_t measured;    /* pairs of points measured */
    uint64_t ruled_out;   /* pairs of points ruled out with their nodes */
    uint64_t taken_whole; /* pairs of points counted with their nodes */
} oul_answer;

/*
 * The library's own functions. A buffer is a pointer that is not NULL, even
 * where its length is 0, and a length; `answer` is room for the six numbers of
 * oul_answer, in that order.
 */
uint32_t oul_pairs_up_to(
    uint32_t k, double radius,
    const uint32_t *lstarts, size_t lstarts_len, const double *lstems, size_t lstems_len,
    const uint32_t *litems, size_t litems_len, const double *lcoords, size_t lcoords_len,
    const uint32_t *rstarts, size_t rstarts_len, const double *rstems, size_t rstems_len,
    const uint32_t *ritems, size_t ritems_len, const double *rcoords, size_t rcoords_len,
    uint32_t *lout, size_t lout_len, uint32_t *rout, size_t rout_len,
    double *dout, size_t dout_len, uint64_t *answer);

uint32_t oul_pairs_under(
    uint32_t k, double radius,
    const uint32_t *lstarts, size_t lstarts_len, const double *lstems, size_t lstems_len,
    const uint32_t *litems, size_t litems_len, const double *lcoords, size_t lcoords_len,
    const uint32_t *rstarts, size_t rstarts_len, const double *rstems, size_t rstems_len,
    const uint32_t *ritems, size_t ritems_len, const double *rcoords, size_t rcoords_len,
    uint32_t *lout, size_t lout_len, uint32_t *rout, size_t rout_len,
    double *dout, size_t dout_len, uint64_t *answer);

uint32_t oul_counts_up_to(
    uint32_t k, double radius,
    const uint32_t *lstarts, size_t lstarts_len, const double *lstems, size_t lstems_len,
    const uint32_t *litems, size_t litems_len, const double *lcoords, size_t lcoords_len,
    const uint32_t *rstarts, size_t rstarts_len, const double *rstems, size_t rstems_len,
    const uint32_t *ritems, size_t ritems_len, const double *rcoords, size_t rcoords_len,
    uint64_t *answer);

uint32_t oul_counts_under(
    uint32_t k, double radius,
    const uint32_t *lstarts, size_t lstarts_len, const double *lstems, size_t lstems_len,
    const uint32_t *litems, size_t litems_len, const double *lcoords, size_t lcoords_len,
    const uint32_t *rstarts, size_t rstarts_len, const double *rstems, size_t rstems_len,
    const uint32_t *ritems, size_t ritems_len, const double *rcoords, size_t rcoords_len,
    uint64_t *answer);

uint32_t oul_nearest(
    uint32_t k,
    const uint32_t *lstarts, size_t lstarts_len, const double *lstems, size_t lstems_len,
    const uint32_t *litems, size_t litems_len, const double *lcoords, size_t lcoords_len,
    const uint32_t *rstarts, size_t rstarts_len, const double *rstems, size_t rstems_len,
    const uint32_t *ritems, size_t ritems_len, const double *rcoords, size_t rcoords_len,
    uint32_t *items, size_t items_len, double *dists, size_t dists_len, uint64_t *answer);

/* The radius of a length: r * r, rounded once, whatever r is. */
double oul_radius_of(double r);

/*
 * The same over structs. NULL with length 0 is an empty buffer here.
 */
static inline const uint32_t *oul_u32s_(const uint32_t *given, size_t len)
{
    static const uint32_t none = 0;
    return given == NULL && len == 0 ? &none : given;
}

static inline const double *oul_f64s_(const double *given, size_t len)
{
    static const double none = 0;
    return given == NULL && len == 0 ? &none : given;
}

/* Of an empty room nothing is written: these are never changed. */
static inline uint32_t *oul_u32_room_(uint32_t *given, size_t len)
{
    static uint32_t none = 0;
    return given == NULL && len == 0 ? &none : given;
}

static inline double *oul_f64_room_(double *given, size_t len)
{
    static double none = 0;
    return given == NULL && len == 0 ? &none : given;
}

static inline oul_answer oul_answer_(const uint64_t six[6])
{
    oul_answer answer;
    answer.side = six[0];
    answer.found = six[1];
    answer.visits = six[2];
    answer.measured = six[3];
    answer.ruled_out = six[4];
    answer.taken_whole = six[5];
    return answer;
}

#define OUL_TREE_(t) \
    oul_u32s_((t).starts, (t).starts_len), (t).starts_len, \
    oul_f64s_((t).stems, (t).stems_len), (t).stems_len, \
    oul_u32s_((t).items, (t).items_len), (t).items_len, \
    oul_f64s_((t).coords, (t).coords_len), (t).coords_len

#define OUL_ROOMS_(r) \
    oul_u32_room_((r).left, (r).left_len), (r).left_len, \
    oul_u32_room_((r).right, (r).right_len), (r).right_len, \
    oul_f64_room_((r).distance, (r).distance_len), (r).distance_len

/* Pairs whose squared distance is at most the radius, in walk order. */
static inline uint32_t oul_join_pairs_up_to(
    uint32_t k, double radius, oul_tree left, oul_tree right, oul_rooms rooms, oul_answer *answer)
{
    uint64_t six[6];
    uint32_t refusal = oul_pairs_up_to(
        k, radius, OUL_TREE_(left), OUL_TREE_(right), OUL_ROOMS_(rooms), six);
    *answer = oul_answer_(six);
    return refusal;
}

/* Pairs whose squared distance is below the radius, in walk order. */
static inline uint32_t oul_join_pairs_under(
    uint32_t k, double radius, oul_tree left, oul_tree right, oul_rooms rooms, oul_answer *answer)
{
    uint64_t six[6];
    uint32_t refusal = oul_pairs_under(
        k, radius, OUL_TREE_(left), OUL_TREE_(right), OUL_ROOMS_(rooms), six);
    *answer = oul_answer_(six);
    return refusal;
}

/* How many pairs have a squared distance of at most the radius. */
static inline uint32_t oul_join_counts_up_to(
    uint32_t k, double radius, oul_tree left, oul_tree right, oul_answer *answer)
{
    uint64_t six[6];
    uint32_t refusal = oul_counts_up_to(k, radius, OUL_TREE_(left), OUL_TREE_(right), six);
    *answer = oul_answer_(six);
    return refusal;
}

/* How many pairs have a squared distance below the radius. */
static inline uint32_t oul_join_counts_under(
    uint32_t k, double radius, oul_tree left, oul_tree right, oul_answer *answer)
{
    uint64_t six[6];
    uint32_t refusal = oul_counts_under(k, radius, OUL_TREE_(left), OUL_TREE_(right), six);
    *answer = oul_answer_(six);
    return refusal;
}

/*
 * For each left point, in place order, the nearest right item and its squared
 * distance; of several that are equally near, the first that the walk measures.
 * Where every distance overflows: item 0 and +inf. Item 0 may be a real one too.
 * If a tree holds no points, nothing is stored and all six numbers are 0.
 */
static inline uint32_t oul_join_nearest(
    uint32_t k, oul_tree left, oul_tree right, oul_nearest_rooms rooms, oul_answer *answer)
{
    uint64_t six[6];
    uint32_t refusal = oul_nearest(
        k, OUL_TREE_(left), OUL_TREE_(right),
        oul_u32_room_(rooms.items, rooms.items_len), rooms.items_len,
        oul_f64_room_(rooms.distance, rooms.distance_len), rooms.distance_len, six);
    *answer = oul_answer_(six);
    return refusal;
}

#undef OUL_TREE_
#undef OUL_ROOMS_

#ifdef __cplusplus
}
#endif

#endif
