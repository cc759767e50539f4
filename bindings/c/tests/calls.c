/* calls [COUNT] [SEED]: random calls of every function, beside the scan. The first call that does not answer as the scan
 * ends the run: its number, its name and what differs are printed. */
#include "scan.h"

#include <inttypes.h>
#include <stdio.h>
#include <stdlib.h>
#include <string.h>

enum { MOST_ITEMS = 300, MOST_QUESTIONS = 6 };

/* What stands in an array before a call. No ID, coordinate or distance of the tests is this number. */
static const uint64_t UNTOUCHED = 0x5a5a5a5a5a5a5a5a;

static const char *wrong; /* what differs from the scan */
static uint64_t random_state;
static rstar_index trees[2], scans[2];

static void expect(bool holds, const char *otherwise) {
    if (!holds && !wrong) {
        wrong = otherwise;
    }
}

/* splitmix64 */
static uint64_t random_number(void) {
    uint64_t z = random_state += 0x9e3779b97f4a7c15;
    z = (z ^ (z >> 30)) * 0xbf58476d1ce4e5b9;
    z = (z ^ (z >> 27)) * 0x94d049bb133111eb;
    return z ^ (z >> 31);
}

static size_t below(size_t bound) {
    return random_number() % bound;
}

/* Most coordinates are small, so that boxes touch and distances tie. One box in 16 has coordinates at the ends and in the middle
 * of their range, one in 16 has coordinates from anywhere. */
static int64_t random_coordinate(size_t style) {
    static const int64_t ends[] = {INT64_MIN, INT64_MIN + 1, INT64_MIN / 2, -3037000500, -1, 0, 1,
                                   3037000499, 3037000500, INT64_MAX / 2, INT64_MAX - 1, INT64_MAX};
    if (style == 0) {
        return ends[below(sizeof ends / sizeof *ends)];
    }
    return style == 1 ? (int64_t)random_number() : (int64_t)below(32) - 16;
}

static rstar_point random_point(void) {
    size_t style = below(16);
    return (rstar_point){{random_coordinate(style), random_coordinate(style)}};
}

static rstar_box random_box(void) {
    size_t style = below(16);
    rstar_box box;
    for (int axis = 0; axis < 2; axis++) {
        box.one[axis] = random_coordinate(style);
        box.other[axis] = style < 3 ? random_coordinate(style) : box.one[axis] + (int64_t)below(9) - 4;
    }
    return box;
}

static int64_t random_distance(void) {
    return below(16) == 0 ? random_coordinate(below(2)) : (int64_t)below(60) - 1;
}

/* A few IDs, so that some stand many times; one in 16 from anywhere. */
static uint64_t random_id(void) {
    return below(16) ? below(500) : random_number();
}

static void *allocate(size_t count, size_t size) {
    void *at = malloc(count * size + 1);
    if (!at) {
        abort();
    }
    return at;
}

/* An array of the heap with one element more than `room`. */
static uint64_t *untouched(size_t room) {
    uint64_t *at = allocate(room + 1, sizeof *at);
    for (size_t i = 0; i <= room; i++) {
        at[i] = UNTOUCHED;
    }
    return at;
}

static void expect_untouched(const uint64_t *at, size_t from, size_t room) {
    for (size_t i = from; i <= room; i++) {
        expect(at[i] == UNTOUCHED, "an element of an array is written that should not be");
    }
}

static size_t lesser(size_t a, size_t b) {
    return a < b ? a : b;
}

/* As much room as there are answers, or some more, or less. */
static size_t random_room(size_t answers) {
    switch (below(4)) {
    case 0:
        return below(answers + 1);
    case 1:
        return answers + below(4);
    default:
        return answers;
    }
}

/* One answer as numbers, to compare answers in any order. */
struct row {
    uint64_t number[5];
};

static int by_numbers(const void *a, const void *b) {
    return memcmp(a, b, sizeof(struct row));
}

/* Rows of up to two arrays. Pairs of one index have no order inside. */
static struct row *rows_of(const uint64_t *first, const uint64_t *second, size_t len, bool is_ordered) {
    struct row *rows = allocate(len, sizeof *rows);
    memset(rows, 0, len * sizeof *rows);
    for (size_t i = 0; i < len; i++) {
        uint64_t one = first[i], other = second ? second[i] : 0;
        bool turns = !is_ordered && other < one;
        rows[i].number[0] = turns ? other : one;
        rows[i].number[1] = turns ? one : other;
    }
    return rows;
}

/* Whether each row of the tree is one of the scan's, as often at most. It sorts both, and frees them. */
static void expect_among(struct row *few, size_t few_len, struct row *all, size_t all_len) {
    qsort(few, few_len, sizeof *few, by_numbers);
    qsort(all, all_len, sizeof *all, by_numbers);
    size_t at = 0;
    for (size_t i = 0; i < few_len; i++, at++) {
        while (at < all_len && by_numbers(&few[i], &all[at]) > 0) {
            at++;
        }
        if (at == all_len || by_numbers(&few[i], &all[at]) != 0) {
            expect(false, "an answer is none of the scan's, or comes too often");
            break;
        }
    }
    free(few);
    free(all);
}

static void expect_ids(const uint64_t *tree_ids, size_t written, const uint64_t *scan_ids, size_t all) {
    expect_among(rows_of(tree_ids, NULL, written, true), written, rows_of(scan_ids, NULL, all, true), all);
}

static void try_len(size_t at) {
    expect(tree.len(&trees[at]) == scan.len(&scans[at]), "the number of rectangles differs");
}

static void try_clear(size_t at) {
    tree.clear(&trees[at]);
    scan.clear(&scans[at]);
    expect(!trees[at].is_made, "the handle is not empty");
}

static void load(size_t at, size_t len) {
    rstar_box *boxes = allocate(len, sizeof *boxes);
    uint64_t *ids = allocate(len, sizeof *ids);
    for (size_t i = 0; i < len; i++) {
        boxes[i] = random_box();
        ids[i] = random_id();
    }
    expect(tree.load(&trees[at], boxes, len, ids, len) == RSTAR_OK, "the status is not RSTAR_OK");
    scan.load(&scans[at], boxes, len, ids, len);
    free(boxes);
    free(ids);
}

static void try_load(size_t at) {
    load(at, below(4) ? below(MOST_ITEMS) : below(8));
}

static void try_insert(size_t at) {
    rstar_box box = random_box();
    uint64_t id = random_id();
    if (tree.len(&trees[at]) >= MOST_ITEMS) {
        load(at, below(MOST_ITEMS));
    }
    expect(tree.insert(&trees[at], id, &box) == RSTAR_OK, "the status is not RSTAR_OK");
    scan.insert(&scans[at], id, &box);
}

/* Mostly a rectangle that is there, by its corners in any order. */
static void some_item(size_t at, uint64_t *id, rstar_box *box) {
    size_t len = scan.len(&scans[at]), found;
    *id = random_id();
    *box = random_box();
    if (len == 0 || below(4) == 0) {
        return;
    }
    rstar_box *boxes = allocate(len, sizeof *boxes);
    uint64_t *ids = allocate(len, sizeof *ids);
    scan.items(&scans[at], boxes, len, ids, len, &found);
    size_t place = below(len);
    *box = boxes[place];
    if (below(8)) {
        *id = ids[place];
    }
    for (int axis = 0; axis < 2; axis++) {
        if (below(2)) {
            int64_t one = box->one[axis];
            box->one[axis] = box->other[axis];
            box->other[axis] = one;
        }
    }
    free(boxes);
    free(ids);
}

static void try_remove(size_t at) {
    uint64_t id;
    rstar_box box;
    some_item(at, &id, &box);
    expect(tree.remove(&trees[at], id, &box) == scan.remove(&scans[at], id, &box), "the answer differs");
}

static void try_contains(size_t at) {
    uint64_t id;
    rstar_box box;
    some_item(at, &id, &box);
    expect(tree.contains(&trees[at], id, &box) == scan.contains(&scans[at], id, &box), "the answer differs");
}

static struct row *item_rows(const rstar_box *boxes, const uint64_t *ids, size_t len) {
    struct row *rows = rows_of(ids, NULL, len, true);
    for (size_t i = 0; i < len; i++) {
        memcpy(&rows[i].number[1], &boxes[i], sizeof boxes[i]);
    }
    return rows;
}

static void try_items(size_t at) {
    size_t all = scan.len(&scans[at]), room = random_room(all), written = lesser(room, all), found = 0;
    uint64_t *tree_ids = untouched(room), *tree_boxes = untouched(4 * room);
    uint64_t *scan_ids = untouched(all), *scan_boxes = untouched(4 * all);
    rstar_status status = tree.items(&trees[at], (rstar_box *)tree_boxes, room, tree_ids, room, &found);
    expect(status == RSTAR_OK, "the status is not RSTAR_OK");
    expect(found == all, "the number of answers differs");
    expect_untouched(tree_ids, written, room);
    expect_untouched(tree_boxes, 4 * written, 4 * room);
    scan.items(&scans[at], (rstar_box *)scan_boxes, all, scan_ids, all, &found);
    expect_among(item_rows((rstar_box *)tree_boxes, tree_ids, written), written,
                 item_rows((rstar_box *)scan_boxes, scan_ids, all), all);
    free(tree_ids), free(tree_boxes), free(scan_ids), free(scan_boxes);
}

/* The four questions, so that one step tries each of them. */
enum kind { MEETING, INSIDE, AT, WITHIN };

static size_t ask(const struct library *of, enum kind kind, rstar_index *index, const rstar_box *box,
                  const rstar_point *point, int64_t distance, uint64_t *ids, size_t room) {
    switch (kind) {
    case MEETING:
        return of->meeting(index, box, ids, room);
    case INSIDE:
        return of->inside(index, box, ids, room);
    case AT:
        return of->at(index, point, ids, room);
    default:
        return of->within(index, point, distance, ids, room);
    }
}

static void try_question(size_t at, enum kind kind) {
    rstar_box box = random_box();
    rstar_point point = random_point();
    int64_t distance = random_distance();
    size_t most = scan.len(&scans[at]);
    uint64_t *scan_ids = untouched(most);
    size_t all = ask(&scan, kind, &scans[at], &box, &point, distance, scan_ids, most);
    size_t room = random_room(all), written = lesser(room, all);
    uint64_t *tree_ids = untouched(room);
    expect(ask(&tree, kind, &trees[at], &box, &point, distance, tree_ids, room) == all, "the number of answers differs");
    expect_untouched(tree_ids, written, room);
    expect_ids(tree_ids, written, scan_ids, all);
    free(tree_ids), free(scan_ids);
}

static void try_meeting(size_t at) {
    try_question(at, MEETING);
}

static void try_inside(size_t at) {
    try_question(at, INSIDE);
}

static void try_at(size_t at) {
    try_question(at, AT);
}

static void try_within(size_t at) {
    try_question(at, WITHIN);
}

static rstar_status ask_each(const struct library *of, enum kind kind, rstar_index *index, const rstar_box *boxes,
                             const rstar_point *points, int64_t distance, size_t len, size_t *offsets, uint64_t *ids,
                             size_t room) {
    switch (kind) {
    case MEETING:
        return of->meeting_each(index, boxes, len, offsets, len + 1, ids, room);
    case INSIDE:
        return of->inside_each(index, boxes, len, offsets, len + 1, ids, room);
    case AT:
        return of->at_each(index, points, len, offsets, len + 1, ids, room);
    default:
        return of->within_each(index, points, len, distance, offsets, len + 1, ids, room);
    }
}

static void try_question_each(size_t at, enum kind kind) {
    rstar_box boxes[MOST_QUESTIONS];
    rstar_point points[MOST_QUESTIONS];
    size_t tree_offsets[MOST_QUESTIONS + 1], scan_offsets[MOST_QUESTIONS + 1];
    size_t len = below(MOST_QUESTIONS + 1), most = len * scan.len(&scans[at]);
    int64_t distance = random_distance();
    for (size_t i = 0; i < len; i++) {
        boxes[i] = random_box();
        points[i] = random_point();
    }
    memset(tree_offsets, 0x5a, sizeof tree_offsets);
    uint64_t *scan_ids = untouched(most);
    ask_each(&scan, kind, &scans[at], boxes, points, distance, len, scan_offsets, scan_ids, most);
    size_t all = scan_offsets[len], room = random_room(all);
    uint64_t *tree_ids = untouched(room);
    rstar_status status = ask_each(&tree, kind, &trees[at], boxes, points, distance, len, tree_offsets, tree_ids, room);
    expect(status == RSTAR_OK, "the status is not RSTAR_OK");
    expect(memcmp(tree_offsets, scan_offsets, (len + 1) * sizeof *tree_offsets) == 0, "the offsets differ");
    expect_untouched(tree_ids, lesser(room, all), room);
    for (size_t i = 0; i < len && !wrong; i++) {
        size_t from = lesser(scan_offsets[i], room), to = lesser(scan_offsets[i + 1], room);
        expect_ids(tree_ids + from, to - from, scan_ids + scan_offsets[i], scan_offsets[i + 1] - scan_offsets[i]);
    }
    free(tree_ids), free(scan_ids);
}

static void try_meeting_each(size_t at) {
    try_question_each(at, MEETING);
}

static void try_inside_each(size_t at) {
    try_question_each(at, INSIDE);
}

static void try_at_each(size_t at) {
    try_question_each(at, AT);
}

static void try_within_each(size_t at) {
    try_question_each(at, WITHIN);
}

/* The same elements, those behind the answers included. */
static void expect_same(const uint64_t *of_tree, const uint64_t *of_scan, size_t room, const char *otherwise) {
    expect(memcmp(of_tree, of_scan, (room + 1) * sizeof *of_tree) == 0, otherwise);
}

static void try_nearest(size_t at) {
    size_t all = scan.len(&scans[at]), most = below(8) ? below(12) : random_room(all), found = 0, wanted = 0;
    rstar_point point = random_point();
    uint64_t *ids = untouched(most), *distances = untouched(most);
    uint64_t *scan_ids = untouched(most), *scan_distances = untouched(most);
    rstar_status status = tree.nearest(&trees[at], &point, ids, most, (int64_t *)distances, most, &found);
    expect(status == RSTAR_OK, "the status is not RSTAR_OK");
    scan.nearest(&scans[at], &point, scan_ids, most, (int64_t *)scan_distances, most, &wanted);
    expect(found == wanted, "the number of answers differs");
    expect_same(distances, scan_distances, most, "the distances differ");
    expect_same(ids, scan_ids, most, "the IDs differ, or come in another order");
    free(ids), free(distances), free(scan_ids), free(scan_distances);
}

static void try_nearest_each(size_t at) {
    rstar_point points[MOST_QUESTIONS];
    size_t len = below(MOST_QUESTIONS + 1), most = below(8) ? below(5) : below(MOST_ITEMS), room = len * most;
    size_t found = 0, wanted = 0;
    for (size_t i = 0; i < len; i++) {
        points[i] = random_point();
    }
    uint64_t *ids = untouched(room), *distances = untouched(room);
    uint64_t *scan_ids = untouched(room), *scan_distances = untouched(room);
    rstar_status status =
        tree.nearest_each(&trees[at], points, len, most, ids, room, (int64_t *)distances, room, &found);
    expect(status == RSTAR_OK, "the status is not RSTAR_OK");
    scan.nearest_each(&scans[at], points, len, most, scan_ids, room, (int64_t *)scan_distances, room, &wanted);
    expect(found == wanted, "the number of answers for each point differs");
    expect_same(distances, scan_distances, room, "the distances differ");
    expect_same(ids, scan_ids, room, "the IDs differ, or come in another order");
    free(ids), free(distances), free(scan_ids), free(scan_distances);
}

static rstar_status join(const struct library *of, rstar_index *index, rstar_index *other, uint64_t *first,
                         uint64_t *second, size_t room, size_t *found) {
    return other ? of->pairs_between(index, other, first, room, second, room, found)
                 : of->pairs(index, first, room, second, room, found);
}

static void try_join(size_t at, bool is_of_two) {
    rstar_index *other_scan = is_of_two ? &scans[1 - at] : NULL, *other_tree = is_of_two ? &trees[1 - at] : NULL;
    size_t all, found = 0;
    uint64_t *none = untouched(0), *more = untouched(0);
    join(&scan, &scans[at], other_scan, none, more, 0, &all);
    size_t room = random_room(all), written = lesser(room, all);
    uint64_t *scan_first = untouched(all), *scan_second = untouched(all);
    uint64_t *tree_first = untouched(room), *tree_second = untouched(room);
    join(&scan, &scans[at], other_scan, scan_first, scan_second, all, &all);
    rstar_status status = join(&tree, &trees[at], other_tree, tree_first, tree_second, room, &found);
    expect(status == RSTAR_OK, "the status is not RSTAR_OK");
    expect(found == all, "the number of pairs differs");
    expect_untouched(tree_first, written, room);
    expect_untouched(tree_second, written, room);
    expect_among(rows_of(tree_first, tree_second, written, is_of_two), written,
                 rows_of(scan_first, scan_second, all, is_of_two), all);
    free(none), free(more), free(scan_first), free(scan_second), free(tree_first), free(tree_second);
}

static void try_pairs(size_t at) {
    try_join(at, false);
}

static void try_pairs_between(size_t at) {
    try_join(at, true);
}

static rstar_status drain(const struct library *of, enum kind kind, rstar_index *index, const rstar_box *box,
                          const rstar_point *point, int64_t distance, uint64_t *ids, size_t room, size_t *found) {
    switch (kind) {
    case MEETING:
        return of->drain_meeting(index, box, ids, room, found);
    case INSIDE:
        return of->drain_inside(index, box, ids, room, found);
    case AT:
        return of->drain_at(index, point, ids, room, found);
    default:
        return of->drain_within(index, point, distance, ids, room, found);
    }
}

static void try_drain(size_t at, enum kind kind) {
    rstar_box box = random_box();
    rstar_point point = random_point();
    int64_t distance = random_distance();
    size_t most = scan.len(&scans[at]), found = 0;
    uint64_t *scan_ids = untouched(most);
    size_t all = ask(&scan, kind, &scans[at], &box, &point, distance, scan_ids, 0), room = random_room(all);
    uint64_t *tree_ids = untouched(room);
    rstar_status status = drain(&tree, kind, &trees[at], &box, &point, distance, tree_ids, room, &found);
    expect(found == all, "the number of answers differs");
    if (room < all) {
        expect(status == RSTAR_NO_ROOM, "the status is not RSTAR_NO_ROOM");
        expect_untouched(tree_ids, 0, room);
    } else {
        expect(status == RSTAR_OK, "the status is not RSTAR_OK");
        expect_untouched(tree_ids, all, room);
        drain(&scan, kind, &scans[at], &box, &point, distance, scan_ids, most, &all);
        expect_ids(tree_ids, all, scan_ids, all);
    }
    free(tree_ids), free(scan_ids);
}

static void try_drain_meeting(size_t at) {
    try_drain(at, MEETING);
}

static void try_drain_inside(size_t at) {
    try_drain(at, INSIDE);
}

static void try_drain_at(size_t at) {
    try_drain(at, AT);
}

static void try_drain_within(size_t at) {
    try_drain(at, WITHIN);
}

static void try_pop_nearest(size_t at) {
    rstar_point point = random_point();
    struct {
        uint64_t id;
        rstar_box box;
        int64_t distance;
    } of_tree, of_scan;
    bool found = false, wanted = false;
    memset(&of_tree, 0x5a, sizeof of_tree);
    memset(&of_scan, 0x5a, sizeof of_scan);
    expect(tree.pop_nearest(&trees[at], &point, &of_tree.id, &of_tree.box, &of_tree.distance, &found) == RSTAR_OK,
           "the status is not RSTAR_OK");
    scan.pop_nearest(&scans[at], &point, &of_scan.id, &of_scan.box, &of_scan.distance, &wanted);
    expect(found == wanted, "`found` differs");
    expect(memcmp(&of_tree, &of_scan, sizeof of_tree) == 0, "the ID, the box or the distance differs");
}

static const struct step {
    const char *name;
    void (*run)(size_t at);
    size_t weight;
} steps[] = {
    {"len", try_len, 20},
    {"clear", try_clear, 1},
    {"load", try_load, 2},
    {"insert", try_insert, 300},
    {"remove", try_remove, 120},
    {"contains", try_contains, 60},
    {"items", try_items, 10},
    {"meeting", try_meeting, 60},
    {"inside", try_inside, 60},
    {"at", try_at, 60},
    {"within", try_within, 60},
    {"meeting_each", try_meeting_each, 20},
    {"inside_each", try_inside_each, 20},
    {"at_each", try_at_each, 20},
    {"within_each", try_within_each, 20},
    {"nearest", try_nearest, 40},
    {"nearest_each", try_nearest_each, 10},
    {"pairs", try_pairs, 3},
    {"pairs_between", try_pairs_between, 3},
    {"drain_meeting", try_drain_meeting, 20},
    {"drain_inside", try_drain_inside, 20},
    {"drain_at", try_drain_at, 20},
    {"drain_within", try_drain_within, 20},
    {"pop_nearest", try_pop_nearest, 40},
};

enum { STEPS = sizeof steps / sizeof *steps };

static size_t random_step(void) {
    size_t sum = 0, place = 0;
    for (size_t i = 0; i < STEPS; i++) {
        sum += steps[i].weight;
    }
    size_t left = below(sum);
    while (left >= steps[place].weight) {
        left -= steps[place++].weight;
    }
    return place;
}

int main(int count, char **words) {
    uint64_t calls = count > 1 ? strtoull(words[1], NULL, 10) : 1000000;
    uint64_t seed = count > 2 ? strtoull(words[2], NULL, 10) : 1;
    uint64_t times[STEPS] = {0};
    random_state = seed;
    for (uint64_t call = 1; call <= calls; call++) {
        size_t at = below(2), place = random_step();
        steps[place].run(at);
        times[place]++;
        try_len(at);
        if (below(64) == 0) {
            try_items(at);
        }
        if (wrong) {
            printf("calls: seed %" PRIu64 ", call %" PRIu64 ", %s of %zu rectangles: %s\n", seed, call, steps[place].name,
                   scan.len(&scans[at]), wrong);
            return 1;
        }
    }
    for (size_t at = 0; at < 2; at++) {
        try_clear(at);
    }
    printf("calls: %" PRIu64 " calls from seed %" PRIu64 " as the scan answers them\n", calls, seed);
    for (size_t i = 0; i < STEPS; i++) {
        printf("  %s %" PRIu64 "%s", steps[i].name, times[i], i + 1 == STEPS ? "\n" : ",");
    }
    return 0;
}
