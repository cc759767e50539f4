/* The functions of rstar.h by a plain scan over an array: what the tests compare the tree with. It ends the program where it
 * gets no memory. */
#include "scan.h"

#include <stdlib.h>
#include <string.h>

struct item {
    uint64_t id;
    rstar_box box; /* its lower and its upper corner */
};

struct list {
    size_t len, room;
    struct item items[];
};

enum kind { MEETING, INSIDE, AT, WITHIN };

struct question {
    enum kind kind;
    rstar_box box;
    rstar_point point;
    int64_t distance;
};

static int64_t lesser(int64_t a, int64_t b) {
    return a < b ? a : b;
}

static int64_t greater(int64_t a, int64_t b) {
    return a > b ? a : b;
}

static rstar_box upright(const rstar_box *box) {
    rstar_box result;
    for (int axis = 0; axis < 2; axis++) {
        result.one[axis] = lesser(box->one[axis], box->other[axis]);
        result.other[axis] = greater(box->one[axis], box->other[axis]);
    }
    return result;
}

static bool is_equal(const rstar_box *a, const rstar_box *b) {
    return memcmp(a, b, sizeof *a) == 0;
}

static bool do_meet(const rstar_box *a, const rstar_box *b) {
    return a->one[0] <= b->other[0] && b->one[0] <= a->other[0] && a->one[1] <= b->other[1] && b->one[1] <= a->other[1];
}

static bool lies_in(const rstar_box *inner, const rstar_box *outer) {
    return outer->one[0] <= inner->one[0] && inner->other[0] <= outer->other[0] &&
           outer->one[1] <= inner->one[1] && inner->other[1] <= outer->other[1];
}

static rstar_box box_of_point(const rstar_point *point) {
    return (rstar_box){{point->at[0], point->at[1]}, {point->at[0], point->at[1]}};
}

int64_t scan_distance(const rstar_box *given, const rstar_point *point) {
    const uint64_t root = 3037000499; /* the greatest number whose square fits into an int64_t */
    rstar_box box = upright(given);
    uint64_t sum = 0;
    for (int axis = 0; axis < 2; axis++) {
        int64_t nearest = lesser(greater(point->at[axis], box.one[axis]), box.other[axis]);
        uint64_t side = (uint64_t)greater(nearest, point->at[axis]) - (uint64_t)lesser(nearest, point->at[axis]);
        if (side > root) {
            return INT64_MAX;
        }
        sum += side * side;
    }
    return sum > INT64_MAX ? INT64_MAX : (int64_t)sum;
}

static bool answers(const struct item *item, const struct question *question) {
    rstar_box point = box_of_point(&question->point);
    switch (question->kind) {
    case MEETING:
        return do_meet(&item->box, &question->box);
    case INSIDE:
        return lies_in(&item->box, &question->box);
    case AT:
        return lies_in(&point, &item->box);
    default:
        return scan_distance(&item->box, &question->point) <= question->distance;
    }
}

static size_t len_of(const rstar_index *index) {
    return index->is_made ? ((struct list *)index->at)->len : 0;
}

static struct item *items_of(const rstar_index *index) {
    return index->is_made ? ((struct list *)index->at)->items : NULL;
}

static void add(rstar_index *index, uint64_t id, const rstar_box *box) {
    struct list *list = index->at;
    if (!index->is_made || list->len == list->room) {
        size_t len = len_of(index), room = 2 * len + 8;
        list = realloc(index->is_made ? list : NULL, sizeof *list + room * sizeof *list->items);
        if (!list) {
            abort();
        }
        list->len = len;
        list->room = room;
        *index = (rstar_index){true, list};
    }
    list->items[list->len++] = (struct item){id, upright(box)};
}

static void take(rstar_index *index, size_t place) {
    struct list *list = index->at;
    list->items[place] = list->items[--list->len];
}

static size_t place_of(const rstar_index *index, uint64_t id, const rstar_box *box) {
    rstar_box wanted = upright(box);
    size_t place = 0;
    while (place < len_of(index) &&
           !(items_of(index)[place].id == id && is_equal(&items_of(index)[place].box, &wanted))) {
        place++;
    }
    return place;
}

static void put(uint64_t *ids, size_t ids_len, size_t place, uint64_t id) {
    if (place < ids_len) {
        ids[place] = id;
    }
}

/* Writes the IDs from a place on, and says the place after the last. */
static size_t ask(const rstar_index *index, struct question question, uint64_t *ids, size_t ids_len, size_t place) {
    question.box = upright(&question.box);
    for (size_t i = 0; i < len_of(index); i++) {
        if (answers(&items_of(index)[i], &question)) {
            put(ids, ids_len, place++, items_of(index)[i].id);
        }
    }
    return place;
}

static rstar_status drain(rstar_index *index, struct question question, uint64_t *ids, size_t ids_len, size_t *found) {
    *found = ask(index, question, ids, 0, 0);
    if (*found > ids_len) {
        return RSTAR_NO_ROOM;
    }
    ask(index, question, ids, ids_len, 0);
    question.box = upright(&question.box);
    for (size_t i = len_of(index); i-- > 0;) {
        if (answers(&items_of(index)[i], &question)) {
            take(index, i);
        }
    }
    return RSTAR_OK;
}

void scan_index_clear(rstar_index *index) {
    if (index->is_made) {
        free(index->at);
    }
    *index = (rstar_index)RSTAR_INDEX_EMPTY;
}

size_t scan_index_len(rstar_index *index) {
    return len_of(index);
}

rstar_status scan_index_load(rstar_index *index, const rstar_box *boxes, size_t boxes_len, const uint64_t *ids,
                             size_t ids_len) {
    if (boxes_len != ids_len) {
        return RSTAR_BAD_LENGTH;
    }
    scan_index_clear(index);
    for (size_t i = 0; i < ids_len; i++) {
        add(index, ids[i], &boxes[i]);
    }
    return RSTAR_OK;
}

rstar_status scan_index_insert(rstar_index *index, uint64_t id, const rstar_box *box) {
    add(index, id, box);
    return RSTAR_OK;
}

bool scan_index_remove(rstar_index *index, uint64_t id, const rstar_box *box) {
    size_t place = place_of(index, id, box);
    if (place == len_of(index)) {
        return false;
    }
    take(index, place);
    return true;
}

bool scan_index_contains(rstar_index *index, uint64_t id, const rstar_box *box) {
    return place_of(index, id, box) < len_of(index);
}

rstar_status scan_index_items(rstar_index *index, rstar_box *boxes, size_t boxes_len, uint64_t *ids, size_t ids_len,
                              size_t *found) {
    for (size_t i = 0; i < len_of(index); i++) {
        if (i < boxes_len) {
            boxes[i] = items_of(index)[i].box;
        }
        put(ids, ids_len, i, items_of(index)[i].id);
    }
    *found = len_of(index);
    return RSTAR_OK;
}

size_t scan_index_meeting(rstar_index *index, const rstar_box *box, uint64_t *ids, size_t ids_len) {
    return ask(index, (struct question){.kind = MEETING, .box = *box}, ids, ids_len, 0);
}

size_t scan_index_inside(rstar_index *index, const rstar_box *box, uint64_t *ids, size_t ids_len) {
    return ask(index, (struct question){.kind = INSIDE, .box = *box}, ids, ids_len, 0);
}

size_t scan_index_at(rstar_index *index, const rstar_point *point, uint64_t *ids, size_t ids_len) {
    return ask(index, (struct question){.kind = AT, .point = *point}, ids, ids_len, 0);
}

size_t scan_index_within(rstar_index *index, const rstar_point *point, int64_t distance, uint64_t *ids, size_t ids_len) {
    return ask(index, (struct question){.kind = WITHIN, .point = *point, .distance = distance}, ids, ids_len, 0);
}

static rstar_status ask_each(const rstar_index *index, struct question question, const rstar_box *boxes,
                             const rstar_point *points, size_t len, size_t *offsets, size_t offsets_len,
                             uint64_t *ids, size_t ids_len) {
    if (offsets_len == 0 || offsets_len - 1 != len) {
        return RSTAR_BAD_LENGTH;
    }
    offsets[0] = 0;
    for (size_t i = 0; i < len; i++) {
        if (boxes) {
            question.box = boxes[i];
        } else {
            question.point = points[i];
        }
        offsets[i + 1] = ask(index, question, ids, ids_len, offsets[i]);
    }
    return RSTAR_OK;
}

rstar_status scan_index_meeting_each(rstar_index *index, const rstar_box *boxes, size_t boxes_len, size_t *offsets,
                                     size_t offsets_len, uint64_t *ids, size_t ids_len) {
    return ask_each(index, (struct question){.kind = MEETING}, boxes, NULL, boxes_len, offsets, offsets_len, ids, ids_len);
}

rstar_status scan_index_inside_each(rstar_index *index, const rstar_box *boxes, size_t boxes_len, size_t *offsets,
                                    size_t offsets_len, uint64_t *ids, size_t ids_len) {
    return ask_each(index, (struct question){.kind = INSIDE}, boxes, NULL, boxes_len, offsets, offsets_len, ids, ids_len);
}

rstar_status scan_index_at_each(rstar_index *index, const rstar_point *points, size_t points_len, size_t *offsets,
                                size_t offsets_len, uint64_t *ids, size_t ids_len) {
    return ask_each(index, (struct question){.kind = AT}, NULL, points, points_len, offsets, offsets_len, ids, ids_len);
}

rstar_status scan_index_within_each(rstar_index *index, const rstar_point *points, size_t points_len,
                                    int64_t distance, size_t *offsets, size_t offsets_len, uint64_t *ids,
                                    size_t ids_len) {
    return ask_each(index, (struct question){.kind = WITHIN, .distance = distance}, NULL, points, points_len, offsets,
                    offsets_len, ids, ids_len);
}

struct neighbour {
    int64_t distance;
    struct item item;
};

/* By distance, then by the lower corner, then by the upper one, then by the ID. */
static int by_order(const void *a, const void *b) {
    const struct neighbour *one = a, *other = b;
    const rstar_box *box = &one->item.box, *other_box = &other->item.box;
    int64_t numbers[] = {one->distance, box->one[0], box->one[1], box->other[0], box->other[1]};
    int64_t others[] = {other->distance, other_box->one[0], other_box->one[1], other_box->other[0], other_box->other[1]};
    for (size_t i = 0; i < sizeof numbers / sizeof *numbers; i++) {
        if (numbers[i] != others[i]) {
            return numbers[i] < others[i] ? -1 : 1;
        }
    }
    return one->item.id < other->item.id ? -1 : one->item.id > other->item.id;
}

/* All rectangles as neighbours of a point, in their order. The caller frees them. */
static struct neighbour *neighbours(const rstar_index *index, const rstar_point *point) {
    size_t len = len_of(index);
    struct neighbour *all = malloc((len + 1) * sizeof *all);
    if (!all) {
        abort();
    }
    for (size_t i = 0; i < len; i++) {
        all[i] = (struct neighbour){scan_distance(&items_of(index)[i].box, point), items_of(index)[i]};
    }
    qsort(all, len, sizeof *all, by_order);
    return all;
}

static size_t nearest(const rstar_index *index, const rstar_point *point, uint64_t *ids, int64_t *distances, size_t most) {
    size_t found = most < len_of(index) ? most : len_of(index);
    struct neighbour *all = neighbours(index, point);
    for (size_t i = 0; i < found; i++) {
        ids[i] = all[i].item.id;
        distances[i] = all[i].distance;
    }
    free(all);
    return found;
}

rstar_status scan_index_nearest(rstar_index *index, const rstar_point *point, uint64_t *ids, size_t ids_len,
                                int64_t *distances, size_t distances_len, size_t *found) {
    if (ids_len != distances_len) {
        return RSTAR_BAD_LENGTH;
    }
    *found = nearest(index, point, ids, distances, ids_len);
    return RSTAR_OK;
}

rstar_status scan_index_nearest_each(rstar_index *index, const rstar_point *points, size_t points_len, size_t most,
                                     uint64_t *ids, size_t ids_len, int64_t *distances, size_t distances_len,
                                     size_t *found) {
    size_t wanted;
    if (__builtin_mul_overflow(points_len, most, &wanted) || ids_len != wanted || distances_len != wanted) {
        return RSTAR_BAD_LENGTH;
    }
    *found = most < len_of(index) ? most : len_of(index);
    for (size_t i = 0; i < points_len; i++) {
        nearest(index, &points[i], ids + i * *found, distances + i * *found, most);
    }
    return RSTAR_OK;
}

rstar_status scan_index_pairs(rstar_index *index, uint64_t *first, size_t first_len, uint64_t *second,
                              size_t second_len, size_t *found) {
    if (first_len != second_len) {
        return RSTAR_BAD_LENGTH;
    }
    *found = 0;
    for (size_t i = 0; i < len_of(index); i++) {
        for (size_t j = 0; j < i; j++) {
            if (do_meet(&items_of(index)[i].box, &items_of(index)[j].box)) {
                put(first, first_len, *found, items_of(index)[i].id);
                put(second, second_len, (*found)++, items_of(index)[j].id);
            }
        }
    }
    return RSTAR_OK;
}

rstar_status scan_index_pairs_between(rstar_index *index, rstar_index *other, uint64_t *first, size_t first_len,
                                      uint64_t *second, size_t second_len, size_t *found) {
    if (first_len != second_len) {
        return RSTAR_BAD_LENGTH;
    }
    *found = 0;
    for (size_t i = 0; i < len_of(index); i++) {
        for (size_t j = 0; j < len_of(other); j++) {
            if (do_meet(&items_of(index)[i].box, &items_of(other)[j].box)) {
                put(first, first_len, *found, items_of(index)[i].id);
                put(second, second_len, (*found)++, items_of(other)[j].id);
            }
        }
    }
    return RSTAR_OK;
}

rstar_status scan_index_drain_meeting(rstar_index *index, const rstar_box *box, uint64_t *ids, size_t ids_len,
                                      size_t *found) {
    return drain(index, (struct question){.kind = MEETING, .box = *box}, ids, ids_len, found);
}

rstar_status scan_index_drain_inside(rstar_index *index, const rstar_box *box, uint64_t *ids, size_t ids_len,
                                     size_t *found) {
    return drain(index, (struct question){.kind = INSIDE, .box = *box}, ids, ids_len, found);
}

rstar_status scan_index_drain_at(rstar_index *index, const rstar_point *point, uint64_t *ids, size_t ids_len,
                                 size_t *found) {
    return drain(index, (struct question){.kind = AT, .point = *point}, ids, ids_len, found);
}

rstar_status scan_index_drain_within(rstar_index *index, const rstar_point *point, int64_t distance, uint64_t *ids,
                                     size_t ids_len, size_t *found) {
    return drain(index, (struct question){.kind = WITHIN, .point = *point, .distance = distance}, ids, ids_len, found);
}

rstar_status scan_index_pop_nearest(rstar_index *index, const rstar_point *point, uint64_t *id, rstar_box *box,
                                    int64_t *distance, bool *found) {
    *found = len_of(index) > 0;
    if (*found) {
        struct neighbour *all = neighbours(index, point);
        *id = all[0].item.id;
        *box = all[0].item.box;
        *distance = all[0].distance;
        free(all);
        scan_index_remove(index, *id, box);
    }
    return RSTAR_OK;
}
