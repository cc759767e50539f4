// A first index, which frees itself: c++ first.cpp librstar.a
#include "rstar.h"

#include <cstdio>
#include <new>
#include <vector>

struct Index {
    mutable rstar_index handle{};

    Index() = default;
    Index(const Index &) = delete;
    Index &operator=(const Index &) = delete;
    ~Index() { rstar_index_clear(&handle); }

    void insert(uint64_t id, rstar_box box) { require(rstar_index_insert(&handle, id, &box)); }

    std::vector<uint64_t> meeting(rstar_box box) const {
        std::vector<uint64_t> ids(8);
        std::size_t found = rstar_index_meeting(&handle, &box, ids.data(), ids.size());
        if (found > ids.size()) {
            ids.resize(found);
            rstar_index_meeting(&handle, &box, ids.data(), ids.size());
        }
        ids.resize(found);
        return ids;
    }

    static void require(rstar_status status) {
        if (status != RSTAR_OK) throw std::bad_alloc();
    }
};

int main() {
    Index index;
    index.insert(7, {{0, 0}, {4, 4}});
    index.insert(8, {{3, 3}, {9, 9}});
    index.insert(9, {{20, 0}, {22, 5}});
    for (uint64_t id : index.meeting({{4, 4}, {6, 6}})) {
        std::printf("%llu\n", static_cast<unsigned long long>(id)); // 7 and 8, in any order
    }
}
