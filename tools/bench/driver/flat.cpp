// The fresh operations on boost's flat sets: std's algorithm writes into a sequence, which the set
// adopts.

#include <algorithm>
#include <boost/container/flat_set.hpp>
#include <cstddef>
#include <cstdint>
#include <utility>
#include <vector>

using Number = std::uint64_t;
using Set = boost::container::flat_set<Number>;
using Sequence = Set::sequence_type;

// The set of a sequence that ascends.
static Set adopted(Sequence sequence) {
    Set set;
    set.adopt_sequence(boost::container::ordered_unique_range, std::move(sequence));
    return set;
}

// The sets of the numbers, cut into lists of `n`.
static std::vector<Set> cut(const Number *numbers, std::size_t count, std::size_t n) {
    std::vector<Set> sets;
    for (std::size_t at = 0; at < count; at += n)
        sets.push_back(adopted(Sequence(numbers + at, numbers + at + n)));
    return sets;
}

// One fresh set of at most `room` numbers.
template <class Algorithm>
static Set fresh(const Set &a, const Set &b, std::size_t room, Algorithm algorithm) {
    Sequence sequence(room, boost::container::default_init);
    auto end = algorithm(a.begin(), a.end(), b.begin(), b.end(), sequence.begin());
    sequence.erase(end, sequence.end());
    return adopted(std::move(sequence));
}

// The work of a row on one pair of sets.
static Set work(Number row, const Set &a, const Set &b) {
    std::size_t both = a.size() + b.size(), least = std::min(a.size(), b.size());
    switch (row) {
    case 0:
        return fresh(a, b, both, [](auto... it) { return std::set_union(it...); });
    case 1:
        return fresh(a, b, least, [](auto... it) { return std::set_intersection(it...); });
    case 2:
        return fresh(a, b, a.size(), [](auto... it) { return std::set_difference(it...); });
    default:
        return fresh(a, b, both, [](auto... it) { return std::set_symmetric_difference(it...); });
    }
}

// Row `row` over pairs of sets of numbers: `left` is cut into lists of `m` numbers, `right` into
// lists of `n`. Answers the sum of the lengths.
extern "C" Number bench_flat(Number row, const Number *left, std::size_t left_count, std::size_t m,
                             const Number *right, std::size_t right_count, std::size_t n,
                             Number rounds) {
    auto lefts = cut(left, left_count, m), rights = cut(right, right_count, n);
    Number sum = 0;
    for (Number round = 0; round < rounds; round++)
        for (std::size_t at = 0; at < lefts.size(); at++) {
            Set set = work(row, lefts[at], rights[at]);
            asm volatile("" : : "r"(&set) : "memory");
            sum += set.size();
        }
    return sum;
}
