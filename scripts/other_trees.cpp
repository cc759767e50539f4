// The lines of docs/PROGRAM.md over another tree: Boost's rtree, or GEOS's STRtree.
//
//   c++ -std=c++17 -O3 -DNDEBUG -DUSE_UNSTABLE_GEOS_CPP_API -DTREE=Boost scripts/other_trees.cpp -lgeos -o boost_lines
//
// Debian's libboost-dev and libgeos++-dev have both. A line without an answer here ends the program, with status 2.

#include <algorithm>
#include <array>
#include <boost/geometry.hpp>
#include <boost/geometry/index/rtree.hpp>
#include <boost/iterator/function_output_iterator.hpp>
#include <charconv>
#include <geos/index/strtree/TemplateSTRtree.h>
#include <iostream>
#include <string>
#include <vector>

namespace bgi = boost::geometry::index;
using Point = boost::geometry::model::point<int64_t, 2, boost::geometry::cs::cartesian>;
using Box = boost::geometry::model::box<Point>;
using Item = std::pair<Box, int64_t>;
using Ids = std::vector<int64_t>;
using Neighbours = std::vector<std::pair<int64_t, int64_t>>; // squared distances with IDs

struct Unknown {};

template <int Axis> __int128 across(const Point &point, const Box &box) {
    auto at = point.get<Axis>();
    return std::max({box.min_corner().get<Axis>() - at, at - box.max_corner().get<Axis>(), int64_t(0)});
}

int64_t squared_distance(const Point &point, const Box &box) {
    auto x = across<0>(point, box), y = across<1>(point, box);
    return std::min<__int128>(x * x + y * y, INT64_MAX);
}

// It takes areas in long doubles. Distances wrap round, as those of 64-bit integers.
struct Boost {
    bgi::rtree<Item, bgi::rstar<8>> tree;

    void load(const std::vector<Item> &items) { tree = decltype(tree)(items); }
    void insert(const Item &item) { tree.insert(item); }
    bool remove(const Item &item) { return tree.remove(item) == 1; }
    template <class Predicate, class Visit> void visit(const Predicate &predicate, Visit visit) const {
        tree.query(predicate, boost::make_function_output_iterator(visit));
    }
    void hit(const Box &box, Ids &ids) const {
        visit(bgi::intersects(box), [&](const Item &item) { ids.push_back(item.second); });
    }
    void in(const Box &box, Ids &ids) const {
        visit(bgi::covered_by(box), [&](const Item &item) { ids.push_back(item.second); });
    }
    void near(const Point &point, int64_t most, Neighbours &found) const {
        visit(bgi::nearest(point, most),
              [&](const Item &item) { found.emplace_back(squared_distance(point, item.first), item.second); });
    }
};

// It works in doubles. A tree that is built takes no more, and finds one neighbour alone.
struct GEOS {
    using Envelope = geos::geom::Envelope;
    geos::index::strtree::TemplateSTRtree<int64_t> tree;

    static Envelope envelope(const Box &box) {
        auto lower = box.min_corner(), upper = box.max_corner();
        return Envelope(lower.get<0>(), upper.get<0>(), lower.get<1>(), upper.get<1>());
    }
    void load(const std::vector<Item> &items) {
        tree = decltype(tree)(10, items.size());
        for (const auto &item : items) {
            tree.insert(envelope(item.first), item.second);
        }
        tree.build();
    }
    void insert(const Item &) { throw Unknown(); }
    bool remove(const Item &item) { return tree.remove(envelope(item.first), item.second); }
    void hit(const Box &box, Ids &ids) { tree.query(envelope(box), ids); }
    void in(const Box &box, Ids &ids) {
        auto area = envelope(box);
        tree.query(area, [&](const Envelope &bounds, int64_t id) {
            if (area.covers(bounds)) {
                ids.push_back(id);
            }
        });
    }
    void near(const Point &, int64_t, Neighbours &) { throw Unknown(); }
};

// The numbers behind the word of a line, and 0 for those that are missing.
std::array<int64_t, 5> numbers(const std::string &line, size_t word) {
    std::array<int64_t, 5> found{};
    auto at = line.data() + word, end = line.data() + line.size();
    for (auto &number : found) {
        while (at != end && *at == ' ') {
            at++;
        }
        at = std::from_chars(at, end, number).ptr;
    }
    return found;
}

Box box(int64_t x1, int64_t y1, int64_t x2, int64_t y2) {
    return Box(Point(std::min(x1, x2), std::min(y1, y2)), Point(std::max(x1, x2), std::max(y1, y2)));
}

Item item(const std::string &line, size_t word) {
    auto [id, x1, y1, x2, y2] = numbers(line, word);
    return Item(box(x1, y1, x2, y2), id);
}

template <class Found, class Show> void print(Found &found, Show show) {
    std::sort(found.begin(), found.end());
    const char *gap = "";
    for (const auto &one : found) {
        std::cout << gap;
        show(one);
        gap = " ";
    }
    std::cout << (found.empty() ? "-\n" : "\n");
    found.clear();
}

void answer(TREE &tree, const std::string &line) {
    static Ids ids;
    static Neighbours neighbours;
    auto word = std::min(line.find(' '), line.size());
    auto name = line.substr(0, word);
    auto [a, b, c, d, _] = numbers(line, word);
    if (name == "load") {
        std::vector<Item> items;
        std::string line;
        while (a-- > 0 && std::getline(std::cin, line)) {
            items.push_back(item(line, 0));
        }
        tree.load(items);
        std::cout << "ok\n";
    } else if (name == "insert") {
        tree.insert(item(line, word));
        std::cout << "ok\n";
    } else if (name == "remove") {
        tree.remove(item(line, word)) ? std::cout << a << '\n' : std::cout << "-\n";
    } else if (name == "hit" || name == "in") {
        name == "hit" ? tree.hit(box(a, b, c, d), ids) : tree.in(box(a, b, c, d), ids);
        print(ids, [](int64_t id) { std::cout << id; });
    } else if (name == "near") {
        tree.near(Point(a, b), c, neighbours);
        print(neighbours, [](auto near) { std::cout << near.second << ':' << near.first; });
    } else {
        throw Unknown();
    }
}

int main() {
    std::ios::sync_with_stdio(false);
    std::cin.tie(nullptr);
    TREE tree;
    std::string line;
    for (size_t number = 1; std::getline(std::cin, line); number++) {
        try {
            answer(tree, line);
        } catch (Unknown) {
            std::cout << "error: line " << number << '\n';
            return 2;
        }
    }
}
