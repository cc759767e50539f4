/* An R*-tree over rectangles with 64-bit IDs, whose answers are proved.
 *
 * Coordinates are whole numbers. A box is two opposite corners, in any order; its border belongs to it.
 * Distances are squared, and held at INT64_MAX. Sizes of arrays count their elements.
 *
 * What the caller owes; nothing checks it:
 *   - a handle is all zero, or as the last call left it; it is not copied and then used twice;
 *   - one call at a time uses a handle, questions included;
 *   - no pointer is null, also where its array has no element;
 *   - each array has been written before, and no two arrays of a call overlap;
 *   - a call gets two different handles where it takes two.
 *
 * A question with an array writes as many answers as the array has room for, and says how many there are; of the nearest
 * it finds no more than it is asked for. Where there are more than it has room for, a second call with a longer array
 * gets all.
 *
 * The questions meeting, inside, at and within, for one or for many, take no memory: lengths alone are refused.
 */
#ifndef RSTAR_H
#define RSTAR_H

#include <stdbool.h>
#include <stddef.h>
#include <stdint.h>

#ifdef __cplusplus
extern "C" {
#endif

/* A handle. All zero, RSTAR_INDEX_EMPTY, holds no rectangle and needs no memory. */
typedef struct rstar_index {
    bool is_made;
    void *at;
} rstar_index;

#define RSTAR_INDEX_EMPTY {false, NULL}

typedef struct rstar_box {
    int64_t one[2];
    int64_t other[2];
} rstar_box;

typedef struct rstar_point {
    int64_t at[2];
} rstar_point;

/* What a call answers. After any but RSTAR_OK the handle is as it was. So are the arrays, but for those of
 * rstar_index_nearest_each and RSTAR_NO_MEMORY: these have the answers for the first points. */
typedef int32_t rstar_status;
#define RSTAR_OK 0
#define RSTAR_NO_MEMORY 1  /* memory was refused */
#define RSTAR_TOO_MANY 2   /* the tree cannot count one more rectangle */
#define RSTAR_BAD_LENGTH 3 /* two arrays that go together have not the lengths that they must have */
#define RSTAR_NO_ROOM 4    /* the array is too short, and nothing was taken out; `found` says how long it must be */

/* Takes all rectangles out, and frees their memory. The handle may be used again. */
void rstar_index_clear(rstar_index *index);

/* The number of rectangles. */
size_t rstar_index_len(rstar_index *index);

/* Rectangles in the place of all that the handle holds, loaded at once: a box and an ID each. */
rstar_status rstar_index_load(rstar_index *index, const rstar_box *boxes, size_t boxes_len,
                              const uint64_t *ids, size_t ids_len);

/* One rectangle more. IDs and boxes may stand many times. */
rstar_status rstar_index_insert(rstar_index *index, uint64_t id, const rstar_box *box);

/* Takes one rectangle with this ID and this box out. False: there was none. */
bool rstar_index_remove(rstar_index *index, uint64_t id, const rstar_box *box);

/* Whether there is a rectangle with this ID and this box. */
bool rstar_index_contains(rstar_index *index, uint64_t id, const rstar_box *box);

/* All rectangles: their boxes, each as its lower and its upper corner, and their IDs. Each array is filled as far as it
 * reaches. */
rstar_status rstar_index_items(rstar_index *index, rstar_box *boxes, size_t boxes_len,
                               uint64_t *ids, size_t ids_len, size_t *found);

/* The IDs of the rectangles that meet a box; touching is enough. Each of these four gives how many rectangles there are. */
size_t rstar_index_meeting(rstar_index *index, const rstar_box *box, uint64_t *ids, size_t ids_len);

/* The IDs of the rectangles that lie inside a box; they may touch its border. */
size_t rstar_index_inside(rstar_index *index, const rstar_box *box, uint64_t *ids, size_t ids_len);

/* The IDs of the rectangles that a point lies in, or on the border of. */
size_t rstar_index_at(rstar_index *index, const rstar_point *point, uint64_t *ids, size_t ids_len);

/* The IDs of the rectangles whose squared distance from a point is at most `distance`. */
size_t rstar_index_within(rstar_index *index, const rstar_point *point, int64_t distance,
                          uint64_t *ids, size_t ids_len);

/* The same questions, many at once; only lengths are refused. The IDs for question i are ids[offsets[i]] up to
 * ids[offsets[i + 1]], as far as there is room. `offsets_len` is one more than the number of questions; the last offset is
 * the number of all IDs. */
rstar_status rstar_index_meeting_each(rstar_index *index, const rstar_box *boxes, size_t boxes_len,
                                      size_t *offsets, size_t offsets_len, uint64_t *ids, size_t ids_len);
rstar_status rstar_index_inside_each(rstar_index *index, const rstar_box *boxes, size_t boxes_len,
                                     size_t *offsets, size_t offsets_len, uint64_t *ids, size_t ids_len);
rstar_status rstar_index_at_each(rstar_index *index, const rstar_point *points, size_t points_len,
                                 size_t *offsets, size_t offsets_len, uint64_t *ids, size_t ids_len);
rstar_status rstar_index_within_each(rstar_index *index, const rstar_point *points, size_t points_len,
                                     int64_t distance, size_t *offsets, size_t offsets_len,
                                     uint64_t *ids, size_t ids_len);

/* The rectangles nearest to a point, the nearest first: their IDs and their squared distances, as many as the two arrays
 * have room for. Both have one length, which is the number that is asked for; `found` says how many there are of them. At
 * equal distance the lesser lower corner comes first, then the lesser upper corner, then the lesser ID. */
rstar_status rstar_index_nearest(rstar_index *index, const rstar_point *point,
                                 uint64_t *ids, size_t ids_len,
                                 int64_t *distances, size_t distances_len, size_t *found);

/* The same for many points, `most` for each. Each point gets `found` of them, the lesser of `most` and the number of
 * rectangles: those of point i begin at i * found. Both arrays have points_len * most elements. */
rstar_status rstar_index_nearest_each(rstar_index *index, const rstar_point *points, size_t points_len, size_t most,
                                      uint64_t *ids, size_t ids_len,
                                      int64_t *distances, size_t distances_len, size_t *found);

/* The pairs of rectangles that meet: each pair once, none with itself. Pair i is first[i] with second[i]; both arrays have
 * one length. */
rstar_status rstar_index_pairs(rstar_index *index, uint64_t *first, size_t first_len,
                               uint64_t *second, size_t second_len, size_t *found);

/* The pairs of a rectangle of one index with one of another that it meets. */
rstar_status rstar_index_pairs_between(rstar_index *index, rstar_index *other, uint64_t *first, size_t first_len,
                                       uint64_t *second, size_t second_len, size_t *found);

/* Takes the rectangles out that one of the four questions finds, and writes their IDs. */
rstar_status rstar_index_drain_meeting(rstar_index *index, const rstar_box *box,
                                       uint64_t *ids, size_t ids_len, size_t *found);
rstar_status rstar_index_drain_inside(rstar_index *index, const rstar_box *box,
                                      uint64_t *ids, size_t ids_len, size_t *found);
rstar_status rstar_index_drain_at(rstar_index *index, const rstar_point *point,
                                  uint64_t *ids, size_t ids_len, size_t *found);
rstar_status rstar_index_drain_within(rstar_index *index, const rstar_point *point, int64_t distance,
                                      uint64_t *ids, size_t ids_len, size_t *found);

/* Takes the first rectangle out in that order, and writes its ID, its box and its squared distance. `found` is false
 * where there was none, and nothing else is written then. */
rstar_status rstar_index_pop_nearest(rstar_index *index, const rstar_point *point,
                                     uint64_t *id, rstar_box *box, int64_t *distance, bool *found);

#ifdef __cplusplus
}
#endif

#endif
