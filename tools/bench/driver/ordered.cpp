// The work of the rows of trees on ordered maps of C and C++: Abseil's B-tree of whole keys, and
// JudySL, a tree of the keys' bytes. Each is there where its headers were to be had.

#include <cstddef>
#include <cstdint>
#include <cstdlib>
#include <functional>
#include <new>
#include <string>
#include <string_view>
#include <utility>
#include <vector>

#ifdef WITH_ABSL
#include <absl/container/btree_map.h>
#endif
#ifdef WITH_JUDY
#include <Judy.h>
#endif

#ifdef COUNTED
// So that what the C++ library asks for is counted, too.
void *operator new(std::size_t bytes) {
    void *block = std::malloc(bytes);
    if (!block)
        std::abort();
    return block;
}
void operator delete(void *block) noexcept { std::free(block); }
void operator delete(void *block, std::size_t) noexcept { std::free(block); }
#endif

namespace {

using Number = std::uint64_t;
using Key = std::string_view;

#ifdef WITH_ABSL
struct BTree {
    absl::btree_map<std::string, Number, std::less<>> map;

    void insert(Key key, Number number) { map.insert_or_assign(std::string(key), number); }
    void insert_missing(Key key, Number number) { map.try_emplace(std::string(key), number); }
    const Number *get(Key key) const {
        auto found = map.find(key);
        return found == map.end() ? nullptr : &found->second;
    }
    Number remove(Key key) {
        auto found = map.find(key);
        Number number = found->second;
        map.erase(found);
        return number;
    }
    BTree copy() const { return *this; }
    // Hands over the pairs from the first key that is not less than `start`, until one is refused.
    template <class F> void walk(Key start, F each) const {
        for (auto at = map.lower_bound(start); at != map.end() && each(Key(at->first), at->second);)
            ++at;
    }
};
#endif

#ifdef WITH_JUDY
// Keys have no byte 0, and at most 255 bytes.
struct Judy {
    Pvoid_t map = nullptr;

    Judy() = default;
    Judy(Judy &&that) noexcept : map(std::exchange(that.map, nullptr)) {}
    ~Judy() { JudySLFreeArray(&map, PJE0); }

    static const std::uint8_t *ended(Key key, char (&room)[256]) {
        if (key.size() > 255)
            std::abort();
        room[key.copy(room, 255)] = 0;
        return reinterpret_cast<std::uint8_t *>(room);
    }
    static Number &of(PPvoid_t place) { return *reinterpret_cast<Number *>(place); }
    void insert(Key key, Number number) {
        char room[256];
        of(JudySLIns(&map, ended(key, room), PJE0)) = number;
    }
    void insert_missing(Key key, Number number) {
        char room[256];
        const std::uint8_t *text = ended(key, room);
        if (!JudySLGet(map, text, PJE0))
            of(JudySLIns(&map, text, PJE0)) = number;
    }
    const Number *get(Key key) const {
        char room[256];
        PPvoid_t place = JudySLGet(map, ended(key, room), PJE0);
        return place ? &of(place) : nullptr;
    }
    Number remove(Key key) {
        char room[256];
        const std::uint8_t *text = ended(key, room);
        Number number = of(JudySLGet(map, text, PJE0));
        JudySLDel(&map, text, PJE0);
        return number;
    }
    Judy copy() const {
        Judy made;
        walk("", [&](Key key, Number number) { return made.insert(key, number), true; });
        return made;
    }
    template <class F> void walk(Key start, F each) const {
        char room[256];
        auto text = const_cast<std::uint8_t *>(ended(start, room));
        PPvoid_t place = JudySLFirst(map, text, PJE0);
        while (place && each(Key(room), of(place)))
            place = JudySLNext(map, text, PJE0);
    }
};
#endif

std::vector<Key> cut(const std::uint8_t *bytes, const std::size_t *ends, std::size_t count) {
    std::vector<Key> keys;
    std::size_t start = 0;
    for (std::size_t at = 0; at < count; start = ends[at++])
        keys.emplace_back(reinterpret_cast<const char *>(bytes) + start, ends[at] - start);
    return keys;
}

Number bytes_of(Key key) {
    Number sum = 0;
    for (char byte : key)
        sum += static_cast<std::uint8_t>(byte);
    return sum;
}

template <class Map> Map numbered(const std::vector<Key> &keys) {
    Map map;
    for (std::size_t at = 0; at < keys.size(); at++)
        map.insert(keys[at], at);
    return map;
}

template <class Map> Number built(const Map &map, Key key) {
    const Number *found = map.get(key);
    return found ? *found : 0;
}

// What stands for the pairs of a walk under a prefix is summed up.
template <class Map, class F> Number sum_under(const Map &map, Key prefix, F of_pair) {
    Number sum = 0;
    map.walk(prefix, [&](Key key, Number number) {
        bool is_under = key.substr(0, prefix.size()) == prefix;
        sum += is_under ? of_pair(key, number) : 0;
        return is_under;
    });
    return sum;
}

// The sum of what the longest beginnings of the paths are bound to, and of their lengths.
template <class Map> Number longest(const Map &map, const std::vector<Key> &paths) {
    Number sum = 0;
    for (Key path : paths)
        for (std::size_t n = path.size() + 1; n-- > 0;)
            if (const Number *found = map.get(path.substr(0, n))) {
                sum += *found + n;
                break;
            }
    return sum;
}

template <class Map> Number removed(const std::vector<Key> &keys) {
    Map map = numbered<Map>(keys);
    Number sum = 0;
    for (Key key : keys)
        sum += map.remove(key);
    return sum;
}

template <class Map> Number united(const Map &map, const Map &other, Key asked) {
    Map both = map.copy();
    other.walk("", [&](Key key, Number number) { return both.insert_missing(key, number), true; });
    return built(both, asked);
}

template <class Map> Number changed(const Map &map, Key key) {
    Map copy = map.copy();
    copy.insert(key, 7);
    return 1;
}

// The work of a row, as that of the other maps.
template <class Map>
Number work(Number row, const Map &map, const Map &other, const std::vector<Key> &keys,
            const std::vector<Key> &asked) {
    auto length = [](Key key, Number number) { return number + key.size(); };
    auto bytes = [](Key key, Number number) { return number + bytes_of(key); };
    Number sum = 0;
    // From 100 on, rows of trees that were made of ascending keys, which come so.
    switch (row % 100) {
    case 1:
        for (Key key : asked)
            if (const Number *found = map.get(key))
                sum += *found + 1;
        return sum;
    case 2:
        return changed(map, keys[0]);
    case 3:
        return sum_under(map, "", length);
    case 4:
        return sum_under(map, "", [](Key, Number number) { return number; });
    case 5:
        return sum_under(map, "", [](Key key, Number number) {
            return number + std::string(key).size();
        });
    case 6:
        return united(map, other, asked[0]);
    case 7:
        return sum_under(map, asked[0], length);
    case 8:
        return longest(map, asked);
    case 9:
        return removed<Map>(keys);
    case 10:
    case 14:
        return sum_under(map, "", bytes);
    case 11:
    case 15:
        return sum_under(map, asked[0], bytes);
    default:
        return built(numbered<Map>(keys), keys[0]);
    }
}

template <class Map>
Number repeated(Number row, const std::vector<Key> &keys, const std::vector<Key> &asked,
                Number rounds) {
    Map map = numbered<Map>(keys), other = numbered<Map>(asked);
    Number sum = 0;
    for (Number round = 0; round < rounds; round++) {
        Number answer = work(row, map, other, keys, asked);
        asm volatile("" : : "r"(answer) : "memory");
        sum += answer;
    }
    return sum;
}

} // namespace

#define EXPORT(NAME, MAP)                                                                          \
    extern "C" Number NAME(Number row, const std::uint8_t *bytes, std::size_t,                     \
                           const std::size_t *ends, std::size_t count, const std::uint8_t *asked,  \
                           std::size_t, const std::size_t *asked_ends, std::size_t asked_count,    \
                           Number rounds) {                                                        \
        return repeated<MAP>(row, cut(bytes, ends, count), cut(asked, asked_ends, asked_count),    \
                             rounds);                                                              \
    }

#ifdef WITH_ABSL
EXPORT(bench_absl, BTree)
#endif
#ifdef WITH_JUDY
EXPORT(bench_judy, Judy)
#endif
