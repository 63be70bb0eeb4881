// Runs the calls of `crates/tool_bench` on Boost.Bimap. `boost PAIRS times KEYS KIND` uses the same keys in the same
// order, and prints the same lines. `boost` alone prints its version.
#include <boost/bimap.hpp>
#include <boost/bimap/list_of.hpp>
#include <boost/bimap/set_of.hpp>
#include <boost/bimap/unordered_set_of.hpp>
#include <boost/version.hpp>
#include <chrono>
#include <cstdint>
#include <cstdio>
#include <optional>
#include <string>

using boost::bimaps::list_of_relation;
using boost::bimaps::set_of;
using boost::bimaps::unordered_set_of;

// The keys of a run, as in `crates/tool_bench`.
struct Keys {
    uint64_t pairs, lefts = 0x9E3779B97F4A7C15, rights = 0xD1B54A32D192ED03, step = 0;
    Keys(uint64_t pairs, bool is_rising) : pairs(pairs) {
        if (is_rising) lefts = rights = step = 1;
        else if (pairs) step = (pairs % 7919 == 0 ? 7907 : 7919) % pairs;
    }
    uint64_t left(uint64_t number) const { return number * lefts; }
    uint64_t right(uint64_t number) const { return number * rights; }
    template <class Test> uint64_t count(Test test) const {
        uint64_t found = 0, number = 0;
        for (uint64_t at = 0; at < pairs; at++) {
            found += test(number);
            uint64_t next = number + step;
            number = next < pairs ? next : next - pairs;
        }
        return found;
    }
};

template <class Work> void timed(const char *kind, const char *call, uint64_t pairs, Work work) {
    auto start = std::chrono::steady_clock::now();
    uint64_t found = work();
    std::chrono::duration<double, std::nano> time = std::chrono::steady_clock::now() - start;
    std::printf("%s %s %.1f %llu\n", kind, call, time.count() / (pairs ? pairs : 1), (unsigned long long)found);
}

// Returns how many bytes of memory the process has for itself.
static uint64_t memory() {
    unsigned long long size, all, shared, own = 0;
    if (FILE *file = std::fopen("/proc/self/statm", "r")) {
        if (std::fscanf(file, "%llu %llu %llu", &size, &all, &shared) == 3) own = all - shared;
        std::fclose(file);
    }
    return own * 4096;
}

template <class Bimap, bool has_order> void measure(const char *kind, Keys keys) {
    uint64_t n = keys.pairs;
    Bimap bimap;
    // An insertion that overwrites. It first erases the pairs that have one of the values. It returns whether it
    // overwrites.
    auto put = [&](Bimap &bimap, uint64_t at, uint64_t apart) {
        typename Bimap::left_value_type pair(keys.left(at), keys.right(at + apart));
        if (bimap.left.insert(pair).second) return false;
        bimap.left.erase(pair.first);
        bimap.right.erase(pair.second);
        bimap.left.insert(pair);
        return true;
    };
    auto insert = [&](uint64_t apart) {
        uint64_t struck = 0;
        for (uint64_t at = 0; at < n; at++) struck += put(bimap, at, apart);
        return struck;
    };
    uint64_t before = memory();
    timed(kind, "insert", n, [&] { return insert(0); });
    uint64_t after = memory();
    std::printf("%s bytes %llu 0\n", kind, (unsigned long long)((after > before ? after - before : 0) / (n ? n : 1)));
    timed(kind, "hit-by-left", n, [&] { return keys.count([&](uint64_t at) { return bimap.left.find(keys.left(at)) != bimap.left.end(); }); });
    timed(kind, "hit-by-right", n, [&] { return keys.count([&](uint64_t at) { return bimap.right.find(keys.right(at)) != bimap.right.end(); }); });
    timed(kind, "miss-by-left", n, [&] { return keys.count([&](uint64_t at) { return bimap.left.find(keys.left(at + n)) != bimap.left.end(); }); });
    timed(kind, "same-pair", n, [&] { return insert(0); });
    timed(kind, "overwrite", n, [&] { return insert(n); });
    timed(kind, "walk", n, [&] {
        uint64_t sum = 0;
        for (auto &pair : bimap) sum += pair.left ^ pair.right;
        return sum;
    });
    if constexpr (has_order) timed(kind, "walk-back", n, [&] {
        uint64_t sum = 0;
        for (auto at = bimap.rbegin(); at != bimap.rend(); ++at) sum += at->left ^ at->right;
        return sum;
    });
    std::optional<Bimap> copy;
    timed(kind, "clone", n, [&] { return copy.emplace(bimap).size(); });
    if constexpr (has_order) {
        // Removes the first pair, and returns `left ^ right`.
        auto pop = [&] {
            auto first = copy->begin();
            uint64_t mixed = first->left ^ first->right;
            copy->erase(first);
            return mixed;
        };
        timed(kind, "queue", n, [&] {
            uint64_t sum = 0;
            for (uint64_t at = 0; at < n; at++) {
                put(*copy, n + at, n);
                sum += pop();
            }
            return sum;
        });
        timed(kind, "pop-first", n, [&] {
            uint64_t sum = 0;
            for (uint64_t at = 0; at < n; at++) sum += pop();
            return sum;
        });
    }
    timed(kind, "remove", n, [&] { return keys.count([&](uint64_t at) { return bimap.left.erase(keys.left(at)) != 0; }); });
}

int main(int count, char **words) {
    if (count < 5) {
        std::puts(BOOST_LIB_VERSION);
        return 0;
    }
    Keys keys(std::stoull(words[1]), std::string(words[3]) == "rising");
    std::string kind = words[4];
    typedef uint64_t N;
    if (kind == "BiBTreeMap") measure<boost::bimap<set_of<N>, set_of<N>>, true>("BiBTreeMap", keys);
    if (kind == "BiBTreeHashMap") measure<boost::bimap<set_of<N>, unordered_set_of<N>>, true>("BiBTreeHashMap", keys);
    if (kind == "BiHashBTreeMap") measure<boost::bimap<unordered_set_of<N>, set_of<N>>, false>("BiHashBTreeMap", keys);
    if (kind == "BiHashMap") measure<boost::bimap<unordered_set_of<N>, unordered_set_of<N>>, false>("BiHashMap", keys);
    if (kind == "BiInsertionOrderMap") measure<boost::bimap<unordered_set_of<N>, unordered_set_of<N>, list_of_relation>, true>("BiInsertionOrderMap", keys);
}
