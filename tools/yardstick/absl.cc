// The work on absl's btree_map. Returns how many keys were found and taken out.
#include "peer.h"
#include <absl/container/btree_map.h>
#include <absl/strings/string_view.h>
#include <string>

using Map = absl::btree_map<std::string, uint32_t>;
using absl::string_view;

static uint64_t sum;

static void insert_all(Map &map, const char *keys, const uint64_t *ends, size_t count) {
    for (size_t at = 0; at < count; at++)
        map.emplace(std::string(keys + from(ends, at), len(ends, at)), at + 1);
}

extern "C" size_t absl_work(const char *keys, const uint64_t *ends, const char *asked, const uint64_t *asked_ends, size_t count,
                            const char *prefixes, const uint64_t *prefix_ends, size_t walks) {
    Map map;
    size_t done = 0;
    bench_begin(INSERT);
    insert_all(map, keys, ends, count);
    bench_begin(GET);
    for (size_t at = 0; at < count; at++)
        done += map.find(string_view(asked + from(asked_ends, at), len(asked_ends, at))) != map.end();
    bench_begin(WALK);
    for (auto &pair : map)
        sum += pair.first.size() + pair.second;
    bench_begin(BACK);
    for (auto it = map.rbegin(); it != map.rend(); ++it)
        sum += it->first.size() + it->second;
    bench_begin(BELOW);
    for (size_t at = 0; at < walks; at++) {
        string_view prefix(prefixes + from(prefix_ends, at), len(prefix_ends, at));
        auto it = map.lower_bound(prefix);
        for (; it != map.end() && !it->first.compare(0, prefix.size(), prefix.data(), prefix.size()); ++it)
            sum += it->second;
    }
    bench_begin(CLONE);
    {
        Map copy(map);
        bench_begin(WALK_CLONE);
        for (auto &pair : copy)
            sum += pair.first.size() + pair.second;
        bench_begin(DROP_CLONE);
    }
    bench_begin(REMOVE);
    for (size_t at = 0; at < count; at++) {
        auto it = map.find(string_view(asked + from(asked_ends, at), len(asked_ends, at)));
        if (it != map.end()) {
            map.erase(it);
            done++;
        }
    }
    bench_begin(AGAIN);
    insert_all(map, keys, ends, count);
    bench_begin(CLEAR);
    map.clear();
    return done;
}
