/* Each allocation of the library is refused in turn: one alone, and one with all that follow. After each refusal the status is
 * RSTAR_NO_MEMORY, and rectangles and arrays are as they were. It is linked with --wrap=malloc and --wrap=realloc.
 *
 * This does not hold of the arrays of nearest_each: it may have written the answers to the first points. */
#include "scan.h"

#include <malloc.h>
#include <stdio.h>
#include <stdlib.h>
#include <string.h>

enum { ITEMS = 200, QUESTIONS = 5, ROOM = 4000 };

/* The refuser: `left` allocations are granted while it is armed. */
static struct {
    bool is_armed, all_that_follow, has_refused;
    size_t left, met;
} refuser;

void *__real_malloc(size_t size);
void *__real_realloc(void *at, size_t size);

static bool is_refused(void) {
    if (!refuser.is_armed) {
        return false;
    }
    refuser.met++;
    if (refuser.left > 0) {
        refuser.left--;
        return false;
    }
    bool refuses = !refuser.has_refused || refuser.all_that_follow;
    refuser.has_refused = true;
    return refuses;
}

void *__wrap_malloc(size_t size) {
    return is_refused() ? NULL : __real_malloc(size);
}

/* A request for less is always refused, and counts for none: the list keeps what it has, and the call goes on. */
void *__wrap_realloc(void *at, size_t size) {
    if (refuser.is_armed && size <= malloc_usable_size(at)) {
        return NULL;
    }
    return is_refused() ? NULL : __real_realloc(at, size);
}

/* What a call may write. */
static struct output {
    uint64_t ids[ROOM], seconds[ROOM];
    int64_t distances[ROOM];
    rstar_box boxes[ROOM];
    size_t offsets[QUESTIONS + 1];
    int64_t distance;
    uint64_t id;
    rstar_box box;
} output, untouched, scan_output;

static size_t found;
static rstar_index trees[2], scans[2];
static rstar_box boxes[2 * ITEMS], areas[QUESTIONS];
static rstar_point points[QUESTIONS];
static uint64_t ids[2 * ITEMS];

/* No two boxes stand equally far from a point, so that neighbours come in one order. */
static void make_data(void) {
    uint64_t state = 1;
    int64_t numbers[2 * ITEMS][4];
    for (size_t i = 0; i < 2 * ITEMS; i++) {
        for (size_t j = 0; j < 4; j++) {
            state = state * 6364136223846793005u + 1442695040888963407u;
            numbers[i][j] = (int64_t)(state >> 33) % 1000000;
        }
        boxes[i] = (rstar_box){{numbers[i][0], numbers[i][1]},
                               {numbers[i][0] + numbers[i][2] / 10, numbers[i][1] + numbers[i][3] / 10}};
        ids[i] = i;
    }
    for (size_t i = 0; i < QUESTIONS; i++) {
        int64_t corner = 100000 * (int64_t)i;
        points[i] = (rstar_point){{corner, corner}};
        areas[i] = (rstar_box){{corner, corner}, {corner + 300000, corner + 300000}};
    }
}

/* A call of either library. */
typedef rstar_status call(const struct library *of, rstar_index *index, struct output *out);

static rstar_status load_many(const struct library *of, rstar_index *index, struct output *out) {
    (void)out;
    return of->load(index, boxes, ITEMS, ids, ITEMS);
}

static rstar_status load_few(const struct library *of, rstar_index *index, struct output *out) {
    (void)out;
    return of->load(index, boxes, 5, ids, 5);
}

static rstar_status load_other(const struct library *of, rstar_index *index, struct output *out) {
    (void)out;
    return of->load(index + 1, boxes + ITEMS, ITEMS, ids + ITEMS, ITEMS);
}

static size_t next_insert;

static rstar_status insert(const struct library *of, rstar_index *index, struct output *out) {
    (void)out;
    return of->insert(index, ids[next_insert], &boxes[next_insert]);
}

static rstar_status items(const struct library *of, rstar_index *index, struct output *out) {
    return of->items(index, out->boxes, ROOM, out->ids, ROOM, &found);
}

static rstar_status meeting(const struct library *of, rstar_index *index, struct output *out) {
    found = of->meeting(index, &areas[0], out->ids, ROOM);
    return RSTAR_OK;
}

static rstar_status inside(const struct library *of, rstar_index *index, struct output *out) {
    found = of->inside(index, &areas[0], out->ids, ROOM);
    return RSTAR_OK;
}

static rstar_status at(const struct library *of, rstar_index *index, struct output *out) {
    found = of->at(index, &points[3], out->ids, ROOM);
    return RSTAR_OK;
}

static rstar_status within(const struct library *of, rstar_index *index, struct output *out) {
    found = of->within(index, &points[1], 40000000000, out->ids, ROOM);
    return RSTAR_OK;
}

static rstar_status meeting_each(const struct library *of, rstar_index *index, struct output *out) {
    return of->meeting_each(index, areas, QUESTIONS, out->offsets, QUESTIONS + 1, out->ids, ROOM);
}

static rstar_status inside_each(const struct library *of, rstar_index *index, struct output *out) {
    return of->inside_each(index, areas, QUESTIONS, out->offsets, QUESTIONS + 1, out->ids, ROOM);
}

static rstar_status at_each(const struct library *of, rstar_index *index, struct output *out) {
    return of->at_each(index, points, QUESTIONS, out->offsets, QUESTIONS + 1, out->ids, ROOM);
}

static rstar_status within_each(const struct library *of, rstar_index *index, struct output *out) {
    return of->within_each(index, points, QUESTIONS, 40000000000, out->offsets, QUESTIONS + 1, out->ids, ROOM);
}

static rstar_status nearest(const struct library *of, rstar_index *index, struct output *out) {
    return of->nearest(index, &points[2], out->ids, 20, out->distances, 20, &found);
}

static rstar_status nearest_each(const struct library *of, rstar_index *index, struct output *out) {
    return of->nearest_each(index, points, QUESTIONS, 20, out->ids, 100, out->distances, 100, &found);
}

static rstar_status pairs(const struct library *of, rstar_index *index, struct output *out) {
    return of->pairs(index, out->ids, ROOM, out->seconds, ROOM, &found);
}

static rstar_status pairs_between(const struct library *of, rstar_index *index, struct output *out) {
    return of->pairs_between(index, index + 1, out->ids, ROOM, out->seconds, ROOM, &found);
}

static rstar_status drain_meeting(const struct library *of, rstar_index *index, struct output *out) {
    return of->drain_meeting(index, &areas[1], out->ids, ROOM, &found);
}

static rstar_status drain_inside(const struct library *of, rstar_index *index, struct output *out) {
    return of->drain_inside(index, &areas[0], out->ids, ROOM, &found);
}

static rstar_status drain_at(const struct library *of, rstar_index *index, struct output *out) {
    return of->drain_at(index, &points[2], out->ids, ROOM, &found);
}

static rstar_status drain_within(const struct library *of, rstar_index *index, struct output *out) {
    return of->drain_within(index, &points[4], 10000000000, out->ids, ROOM, &found);
}

static rstar_status pop_nearest(const struct library *of, rstar_index *index, struct output *out) {
    bool is_there = false;
    rstar_status status = of->pop_nearest(index, &points[1], &out->id, &out->box, &out->distance, &is_there);
    found = is_there;
    return status;
}

/* These answer no status: no allocation of theirs can be refused, since they ask for none. */
static rstar_status takes_none(const struct library *of, rstar_index *index, struct output *out) {
    (void)out;
    found = of->len(index);
    found += of->contains(index, ids[1], &boxes[1]);
    found += 2 * of->remove(index, ids[1], &boxes[1]);
    return RSTAR_OK;
}

static rstar_status clear(const struct library *of, rstar_index *index, struct output *out) {
    (void)out;
    of->clear(index);
    return RSTAR_OK;
}

static const char *step_name = "";
static size_t refusals;

static void fail(const char *what) {
    printf("refused_memory: %s, allocation %zu: %s\n", step_name, refuser.met, what);
    exit(1);
}

struct item {
    uint64_t id;
    rstar_box box;
};

static int by_item(const void *a, const void *b) {
    return memcmp(a, b, sizeof(struct item));
}

static size_t items_of(const struct library *of, rstar_index *index, struct item *into) {
    static rstar_box of_boxes[ROOM];
    static uint64_t of_ids[ROOM];
    size_t len;
    if (of->items(index, of_boxes, ROOM, of_ids, ROOM, &len) != RSTAR_OK) {
        fail("the rectangles cannot be listed");
    }
    for (size_t i = 0; i < len; i++) {
        into[i] = (struct item){of_ids[i], of_boxes[i]};
    }
    qsort(into, len, sizeof *into, by_item);
    return len;
}

static void expect_same_items(const char *otherwise) {
    static struct item of_tree[ROOM], of_scan[ROOM];
    for (size_t i = 0; i < 2; i++) {
        size_t len = items_of(&tree, &trees[i], of_tree);
        if (len != items_of(&scan, &scans[i], of_scan) || memcmp(of_tree, of_scan, len * sizeof *of_tree)) {
            fail(otherwise);
        }
    }
}

/* Runs a call of the tree with an allocation refused, and says whether there was one. */
static bool is_refused_at(call *run, size_t allocation, bool all_that_follow) {
    memset(&output, 0x5a, sizeof output);
    refuser.is_armed = true;
    refuser.all_that_follow = all_that_follow;
    refuser.has_refused = false;
    refuser.left = allocation;
    refuser.met = 0;
    rstar_status status = run(&tree, trees, &output);
    refuser.is_armed = false;
    if (!refuser.has_refused) {
        if (status != RSTAR_OK) {
            fail("the status is not RSTAR_OK");
        }
        return false;
    }
    refusals++;
    if (status != RSTAR_NO_MEMORY) {
        fail("the status is not RSTAR_NO_MEMORY");
    }
    if (run != nearest_each && memcmp(&output, &untouched, sizeof output)) {
        fail("an array is not as it was");
    }
    expect_same_items("the rectangles are not as they were");
    return true;
}

/* Refuses each allocation of a call, with all that follow and alone, until the call is not refused. Then it did as the scan. A
 * refused call may keep memory that it got, so the next try may ask for less. */
static void try_call(const char *name, call *run) {
    step_name = name;
    size_t allocation = 0;
    while (is_refused_at(run, allocation, true) && is_refused_at(run, allocation, false)) {
        allocation++;
    }
    size_t found_by_tree = found;
    if (run(&scan, scans, &scan_output) != RSTAR_OK || found != found_by_tree) {
        fail("the scan finds another number");
    }
    expect_same_items("the rectangles differ");
}

/* The same, for a call that asks for no memory. */
static void try_free_call(const char *name, call *run) {
    size_t before = refusals;
    try_call(name, run);
    if (refusals > before) {
        fail("it asks for memory");
    }
}

static const struct step {
    const char *name;
    call *run;
} questions[] = {
    {"items", items}, {"nearest", nearest}, {"nearest_each", nearest_each},
    {"pairs", pairs}, {"pairs_between", pairs_between},
};

/* These ask for no memory. */
static const struct step selections[] = {
    {"meeting", meeting}, {"inside", inside}, {"at", at}, {"within", within},
    {"meeting_each", meeting_each}, {"inside_each", inside_each}, {"at_each", at_each}, {"within_each", within_each},
};

static const struct step removals[] = {
    {"pop_nearest", pop_nearest}, {"drain_at", drain_at}, {"drain_within", drain_within},
    {"drain_inside", drain_inside}, {"drain_meeting", drain_meeting},
};

static void try_steps(const struct step *steps, size_t count, bool take_memory) {
    for (size_t i = 0; i < count; i++) {
        (take_memory ? try_call : try_free_call)(steps[i].name, steps[i].run);
    }
}

#define COUNT(steps) (sizeof steps / sizeof *steps)

int main(void) {
    make_data();
    memset(&untouched, 0x5a, sizeof untouched);
    try_free_call("takes_none of an empty handle", takes_none);
    try_steps(questions, COUNT(questions), false);
    try_steps(selections, COUNT(selections), false);
    try_steps(removals, COUNT(removals), false);
    try_call("load of a few", load_few);
    try_steps(questions, COUNT(questions), true);
    try_steps(selections, COUNT(selections), false);
    try_free_call("pairs_between with an empty handle", pairs_between);
    try_call("load in their place", load_many);
    try_call("load of the other", load_other);
    try_steps(questions, COUNT(questions), true);
    try_steps(selections, COUNT(selections), false);
    try_free_call("takes_none", takes_none);
    try_steps(removals, COUNT(removals), true);
    try_free_call("clear", clear);
    for (next_insert = 0; next_insert < ITEMS; next_insert++) {
        try_call("insert", insert);
    }
    try_steps(questions, COUNT(questions), true);
    try_steps(selections, COUNT(selections), false);
    try_steps(removals, COUNT(removals), true);
    if (refusals == 0) {
        fail("no allocation was met");
    }
    for (size_t i = 0; i < 2; i++) {
        tree.clear(&trees[i]);
        scan.clear(&scans[i]);
    }
    printf("refused_memory: %zu refusals, none with a trace\n", refusals);
    return 0;
}
