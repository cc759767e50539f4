/* Arrays of lengths that do not fit: the status is RSTAR_BAD_LENGTH, or RSTAR_NO_ROOM of a drain, and nothing changes. The last
 * calls of each kind have lengths that fit. */
#include "scan.h"

#include <stdio.h>
#include <string.h>

static rstar_index tree_index, other_index;
static uint64_t ids[8], more[8];
static int64_t distances[8];
static size_t offsets[8], found;
static rstar_box boxes[8];
static rstar_point points[8];
static int failures;

static void expect(bool holds, const char *what) {
    if (!holds) {
        printf("lengths: %s\n", what);
        failures++;
    }
}

/* Whether the arrays and the index are as they were made. */
static bool is_untouched(void) {
    for (size_t i = 0; i < 8; i++) {
        if (ids[i] != 90 + i || more[i] != 70 + i || distances[i] != -1 || offsets[i] != 50) {
            return false;
        }
    }
    return tree.len(&tree_index) == 3 && tree.len(&other_index) == 0;
}

static void make(void) {
    for (size_t i = 0; i < 8; i++) {
        ids[i] = 90 + i;
        more[i] = 70 + i;
        distances[i] = -1;
        offsets[i] = 50;
        boxes[i] = (rstar_box){{(int64_t)i, 0}, {(int64_t)i + 1, 1}};
        points[i] = (rstar_point){{(int64_t)i, 0}};
    }
    expect(tree.load(&tree_index, boxes, 3, ids, 3) == RSTAR_OK, "load");
}

#define REFUSED(status, call) expect((call) == (status) && is_untouched(), #call)
#define BAD(call) REFUSED(RSTAR_BAD_LENGTH, call)
#define GOOD(call) expect((call) == RSTAR_OK, #call)

static void try_lists(void) {
    BAD(tree.load(&tree_index, boxes, 3, ids, 2));
    BAD(tree.load(&tree_index, boxes, 0, ids, 1));
    BAD(tree.load(&other_index, boxes, 2, ids, 3));
}

static void try_batches(void) {
    BAD(tree.meeting_each(&tree_index, boxes, 2, offsets, 2, ids, 8));
    BAD(tree.meeting_each(&tree_index, boxes, 2, offsets, 4, ids, 8));
    BAD(tree.meeting_each(&tree_index, boxes, 0, offsets, 0, ids, 8));
    BAD(tree.inside_each(&tree_index, boxes, 2, offsets, 2, ids, 8));
    BAD(tree.inside_each(&other_index, boxes, 2, offsets, 4, ids, 8));
    BAD(tree.at_each(&tree_index, points, 2, offsets, 2, ids, 8));
    BAD(tree.at_each(&tree_index, points, 0, offsets, 2, ids, 8));
    BAD(tree.within_each(&tree_index, points, 2, 1, offsets, 2, ids, 8));
    BAD(tree.within_each(&other_index, points, 2, 1, offsets, 0, ids, 8));
}

static void try_neighbours(void) {
    BAD(tree.nearest(&tree_index, points, ids, 2, distances, 3, &found));
    BAD(tree.nearest(&tree_index, points, ids, 3, distances, 2, &found));
    BAD(tree.nearest(&other_index, points, ids, 0, distances, 1, &found));
    BAD(tree.nearest_each(&tree_index, points, 2, 2, ids, 4, distances, 3, &found));
    BAD(tree.nearest_each(&tree_index, points, 2, 2, ids, 3, distances, 4, &found));
    BAD(tree.nearest_each(&tree_index, points, 2, 2, ids, 5, distances, 5, &found));
    BAD(tree.nearest_each(&other_index, points, 2, 2, ids, 2, distances, 2, &found));
    /* 2 * (SIZE_MAX / 2 + 1) is 0 where a product wraps round. */
    expect(tree.nearest_each(&tree_index, points, 2, SIZE_MAX / 2 + 1, ids, 0, distances, 0, &found) != RSTAR_OK &&
               is_untouched(),
           "nearest_each of more than fit");
}

static void try_joins_and_drains(void) {
    BAD(tree.pairs(&tree_index, ids, 2, more, 3, &found));
    BAD(tree.pairs(&other_index, ids, 3, more, 2, &found));
    BAD(tree.pairs_between(&tree_index, &other_index, ids, 2, more, 3, &found));
    BAD(tree.pairs_between(&other_index, &tree_index, ids, 3, more, 2, &found));
    found = 0;
    REFUSED(RSTAR_NO_ROOM, tree.drain_meeting(&tree_index, &boxes[1], ids, 2, &found));
    expect(found == 3, "drain_meeting says how long the array must be");
    REFUSED(RSTAR_NO_ROOM, tree.drain_inside(&tree_index, &boxes[1], ids, 0, &found));
    expect(found == 1, "drain_inside says how long the array must be");
    REFUSED(RSTAR_NO_ROOM, tree.drain_at(&tree_index, &points[1], ids, 1, &found));
    expect(found == 2, "drain_at says how long the array must be");
    REFUSED(RSTAR_NO_ROOM, tree.drain_within(&tree_index, &points[1], 1, ids, 2, &found));
    expect(found == 3, "drain_within says how long the array must be");
}

static void try_lengths_that_fit(void) {
    expect(tree.meeting(&tree_index, &boxes[1], ids, 0) == 3 && ids[0] == 90, "meeting without room counts");
    GOOD(tree.meeting_each(&tree_index, boxes, 0, offsets, 1, ids, 0));
    expect(offsets[0] == 0 && offsets[1] == 50, "meeting_each of no box writes one offset");
    GOOD(tree.meeting_each(&tree_index, boxes, 2, offsets, 3, ids, 0));
    expect(offsets[1] == 2 && offsets[2] == 5 && ids[0] == 90, "meeting_each without room counts");
    GOOD(tree.nearest(&tree_index, points, ids, 0, distances, 0, &found));
    expect(found == 0, "nearest of none");
    GOOD(tree.nearest_each(&tree_index, points, 0, 5, ids, 0, distances, 0, &found));
    GOOD(tree.pairs(&tree_index, ids, 0, more, 0, &found));
    expect(found == 2 && ids[0] == 90, "pairs without room counts");
    GOOD(tree.drain_meeting(&tree_index, &boxes[1], ids, 3, &found));
    expect(found == 3 && tree.len(&tree_index) == 0, "drain_meeting with just the room");
    GOOD(tree.load(&tree_index, boxes, 0, ids, 0));
    expect(tree.len(&tree_index) == 0, "load of none");
}

int main(void) {
    make();
    try_lists();
    try_batches();
    try_neighbours();
    try_joins_and_drains();
    try_lengths_that_fit();
    tree.clear(&tree_index);
    tree.clear(&other_index);
    if (failures == 0) {
        puts("lengths: each is refused that does not fit");
    }
    return failures > 0;
}
