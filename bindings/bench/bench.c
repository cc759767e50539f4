/* Times of the library, the best of three rounds each, and the sums of the answers. rstar_bench prints the same of
 * rstar. The boxes lie at random, or are those of a file: the `load` that scripts/speed.py keeps. */
#include "rstar.h"

#include <inttypes.h>
#include <stdio.h>
#include <stdlib.h>
#include <string.h>
#include <time.h>

enum { ITEMS = 100000, QUESTIONS = 10000, NEAREST = 10, ROOM = ITEMS, ROUNDS = 3 };

static rstar_box boxes[ITEMS], areas[QUESTIONS];
static rstar_point points[QUESTIONS];
static uint64_t ids[ITEMS], answers[ROOM], all_answers[100 * QUESTIONS];
static int64_t distances[NEAREST];
static size_t offsets[QUESTIONS + 1];
static uint64_t hits, sum_of_ids, sum_of_distances;
static uint64_t state = 1;

/* splitmix64 */
static int64_t below(uint64_t bound) {
    uint64_t z = state += 0x9e3779b97f4a7c15;
    z = (z ^ (z >> 30)) * 0xbf58476d1ce4e5b9;
    z = (z ^ (z >> 27)) * 0x94d049bb133111eb;
    return (int64_t)((z ^ (z >> 31)) % bound);
}

static rstar_box random_box(uint64_t most_side) {
    int64_t x = below(2000000), y = below(2000000), width = below(most_side), height = below(most_side);
    return (rstar_box){{x, y}, {x + width, y + height}};
}

static void require(bool holds) {
    if (!holds) {
        fputs("bench: a call failed\n", stderr);
        exit(1);
    }
}

static void draw(void) {
    for (size_t i = 0; i < ITEMS; i++) {
        boxes[i] = random_box(4000);
    }
    for (size_t i = 0; i < QUESTIONS; i++) {
        areas[i] = random_box(20000);
        points[i] = (rstar_point){{below(2000000), below(2000000)}};
    }
}

/* A question is a box grown by its own sides, or a corner. */
static void read_boxes(const char *path) {
    FILE *file = fopen(path, "r");
    require(file && fscanf(file, "load %*u") == 0);
    for (size_t i = 0; i < ITEMS; i++) {
        int64_t *one = boxes[i].one, *other = boxes[i].other;
        require(fscanf(file, "%*u%" SCNd64 "%" SCNd64 "%" SCNd64 "%" SCNd64, one, one + 1, other, other + 1) == 4);
    }
    fclose(file);
    for (size_t i = 0; i < QUESTIONS; i++) {
        const rstar_box *box = &boxes[below(ITEMS)];
        for (size_t k = 0; k < 2; k++) {
            int64_t side = box->other[k] - box->one[k];
            areas[i].one[k] = box->one[k] - side;
            areas[i].other[k] = box->other[k] + side;
        }
        memcpy(points[i].at, boxes[below(ITEMS)].one, sizeof points[i].at);
    }
}

static void load(rstar_index *index) { require(rstar_index_load(index, boxes, ITEMS, ids, ITEMS) == RSTAR_OK); }

static void ask(rstar_index *index) {
    hits = sum_of_ids = 0;
    for (size_t i = 0; i < QUESTIONS; i++) {
        size_t found = rstar_index_meeting(index, &areas[i], answers, ROOM);
        require(found <= ROOM);
        hits += found;
        for (size_t j = 0; j < found; j++) {
            sum_of_ids += answers[j];
        }
    }
}

static void ask_at_once(rstar_index *index) {
    require(rstar_index_meeting_each(index, areas, QUESTIONS, offsets, QUESTIONS + 1, all_answers, 100 * QUESTIONS) ==
            RSTAR_OK);
    require(offsets[QUESTIONS] == hits);
}

static void find_nearest(rstar_index *index) {
    sum_of_distances = 0;
    for (size_t i = 0; i < QUESTIONS; i++) {
        size_t found;
        require(rstar_index_nearest(index, &points[i], answers, NEAREST, distances, NEAREST, &found) == RSTAR_OK);
        for (size_t j = 0; j < found; j++) {
            sum_of_distances += (uint64_t)distances[j];
        }
    }
}

static void insert(rstar_index *index) {
    rstar_index_clear(index);
    for (size_t i = 0; i < ITEMS; i++) {
        require(rstar_index_insert(index, ids[i], &boxes[i]) == RSTAR_OK);
    }
}

static double seconds_of(void (*run)(rstar_index *), rstar_index *index) {
    struct timespec begin, end;
    clock_gettime(CLOCK_MONOTONIC, &begin);
    run(index);
    clock_gettime(CLOCK_MONOTONIC, &end);
    return (double)(end.tv_sec - begin.tv_sec) + (double)(end.tv_nsec - begin.tv_nsec) * 1e-9;
}

int main(int count, char **words) {
    static const struct {
        const char *name;
        void (*run)(rstar_index *);
        double scale;
    } rows[] = {
        {"load of 100,000, ms", load, 1e3},
        {"question, us", ask, 1e6 / QUESTIONS},
        {"question of a batch, us", ask_at_once, 1e6 / QUESTIONS},
        {"10 nearest, us", find_nearest, 1e6 / QUESTIONS},
        {"insertion, us", insert, 1e6 / ITEMS},
    };
    enum { ROWS = sizeof rows / sizeof *rows };
    double best[ROWS];
    rstar_index index = RSTAR_INDEX_EMPTY;
    if (count > 1) {
        read_boxes(words[1]);
    } else {
        draw();
    }
    for (size_t i = 0; i < ITEMS; i++) {
        ids[i] = i;
    }
    for (int round = 0; round < ROUNDS; round++) {
        rstar_index_clear(&index);
        for (size_t i = 0; i < ROWS; i++) {
            double seconds = seconds_of(rows[i].run, &index);
            best[i] = round == 0 || seconds < best[i] ? seconds : best[i];
        }
    }
    for (size_t i = 0; i < ROWS; i++) {
        printf("%s\t%.2f\n", rows[i].name, best[i] * rows[i].scale);
    }
    printf("answers\t%" PRIu64 " %" PRIu64 " %" PRIu64 "\n", hits, sum_of_ids, sum_of_distances);
    rstar_index_clear(&index);
    return 0;
}
