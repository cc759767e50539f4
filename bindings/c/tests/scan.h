/* The functions of rstar.h by a plain scan over an array, each as scan_index_NAME, and both sets as tables. */
#ifndef SCAN_H
#define SCAN_H

#include "rstar.h"

#define EACH_CALL(DO) \
    DO(clear) DO(len) DO(load) DO(insert) DO(remove) DO(contains) DO(items) DO(meeting) DO(inside) DO(at) DO(within) \
    DO(meeting_each) DO(inside_each) DO(at_each) DO(within_each) DO(nearest) DO(nearest_each) DO(pairs) \
    DO(pairs_between) DO(drain_meeting) DO(drain_inside) DO(drain_at) DO(drain_within) DO(pop_nearest)

#define DECLARE(name) __typeof__(rstar_index_##name) scan_index_##name;
EACH_CALL(DECLARE)

struct library {
#define FIELD(name) __typeof__(rstar_index_##name) *name;
    EACH_CALL(FIELD)
};

#define OF_TREE(name) .name = rstar_index_##name,
#define OF_SCAN(name) .name = scan_index_##name,
static const struct library tree = {EACH_CALL(OF_TREE)};
static const struct library scan = {EACH_CALL(OF_SCAN)};

/* The squared distance of a point from a box, held at INT64_MAX. */
int64_t scan_distance(const rstar_box *box, const rstar_point *point);

#endif
