// The functions of basilvault.h from C++17: buffers as spans, answers by their names. Thin: nothing is allocated, kept or thrown; what a call means, and what
// a caller must see to, says basilvault.h. Every function but fit takes limits last, 24 states and 32 symbols where none are given.
//
//     std::vector<std::uint8_t> table = ..., map(40), out(BASILVAULT_LONGEST_FILE);
//     std::vector<std::uint16_t> list(32768);
//     if (auto reduced = basilvault::reduce(table, 100000, list, map, out)) use(out.data(), reduced.value.length);
//     else report(reduced.number);
#ifndef BASILVAULT_HPP
#define BASILVAULT_HPP

#include "basilvault.h"

#include <array>
#include <cstddef>
#include <cstdint>
#include <type_traits>
#include <utility>

namespace basilvault {

// Elements that stand side by side: an array, or anything that has data() and size(), is one.
template <class T> struct span {
    T *first = nullptr;
    std::size_t count = 0;

    constexpr span() noexcept = default;
    constexpr span(T *start, std::size_t length) noexcept : first(start), count(length) {}
    template <std::size_t N> constexpr span(T (&array)[N]) noexcept : first(array), count(N) {}
    template <class C, class = std::enable_if_t<std::is_convertible_v<decltype(std::declval<C &>().data()), T *>>>
    constexpr span(C &&container) noexcept : first(container.data()), count(container.size()) {}

    constexpr T *data() const noexcept { return first; }
    constexpr std::size_t size() const noexcept { return count; }
};

using bytes = span<const std::uint8_t>;
using words = span<const std::uint16_t>;
using byte_buffer = span<std::uint8_t>;
using word_buffer = span<std::uint16_t>;

// The limits that a table is read at.
struct limits {
    std::size_t states = BASILVAULT_STANDARD_STATES;
    std::size_t symbols = BASILVAULT_STANDARD_SYMBOLS;
};

// What a call answers: true where it is not refused. With a refusal's number the value is zeros.
template <class T> struct [[nodiscard]] answer {
    std::uint32_t number = 0;
    T value{};

    constexpr explicit operator bool() const noexcept { return number == 0; }
};

struct starts {
    std::uint64_t symbols, states, internals, calls, returns;
};
struct listed {
    std::uint64_t clauses, words;
};
struct reduced {
    std::uint64_t classes, guesses, words, length, joined, ceiling;
    bool spent;
};
struct recorded {
    std::uint64_t records, kept, folded, dead;
};
// A word of tops for each possible state, or a sum for each possible class, and how many there are in all.
struct by_state {
    std::array<std::uint64_t, BASILVAULT_MOST_STATES> each;
    std::uint64_t all;
};
// What came of one table of a season.
struct seasoned {
    std::uint32_t number;
    reduced value;
};
// What a random table is asked to be.
struct load {
    std::uint32_t seed;
    std::size_t states, internals, calls, returns;
    std::uint32_t density;
};

namespace detail {
// The answer of a call that stores N values, by the function that names them.
template <std::size_t N, class Call, class Named> auto made(Call call, Named named) noexcept {
    std::array<std::uint64_t, N> v{};
    const std::uint32_t number = call(v.data(), N);
    return answer<decltype(named(v.data()))>{number, named(v.data())};
}
inline std::uint64_t only(const std::uint64_t *v) noexcept { return v[0]; }
inline bool yes(const std::uint64_t *v) noexcept { return v[0] != 0; }
inline reduced as_reduced(const std::uint64_t *v) noexcept { return {v[0], v[1], v[2], v[3], v[4], v[5], v[6] != 0}; }
inline by_state as_by_state(const std::uint64_t *v) noexcept {
    by_state b{};
    for (std::size_t i = 0; i < b.each.size(); i++) b.each[i] = v[i];
    b.all = v[b.each.size()];
    return b;
}
inline std::array<seasoned, BASILVAULT_MOST_TABLES> as_season(const std::uint64_t *v) noexcept {
    std::array<seasoned, BASILVAULT_MOST_TABLES> all{};
    for (std::size_t i = 0; i < all.size(); i++) all[i] = {static_cast<std::uint32_t>(v[8 * i]), as_reduced(v + 8 * i + 1)};
    return all;
}
} // namespace detail

// clang-format off
#define BASILVAULT_CALL(function, values, named, ...) \
    detail::made<values>([&](std::uint64_t *v, std::size_t n) noexcept { return function(__VA_ARGS__, v, n); }, named)
#define BASILVAULT_SPAN(s) (s).data(), (s).size()

inline auto read(bytes table, limits l = {}) noexcept {
    return BASILVAULT_CALL(basilvault_read_within, BASILVAULT_READ_VALUES, ([](const std::uint64_t *v) { return starts{v[0], v[1], v[2], v[3], v[4]}; }),
                           l.states, l.symbols, BASILVAULT_SPAN(table));
}
inline auto tops(bytes table, limits l = {}) noexcept {
    return BASILVAULT_CALL(basilvault_tops_within, BASILVAULT_TOPS_VALUES, detail::as_by_state, l.states, l.symbols, BASILVAULT_SPAN(table));
}
inline auto clauses(bytes table, word_buffer list, limits l = {}) noexcept {
    return BASILVAULT_CALL(basilvault_clauses_within, BASILVAULT_CLAUSES_VALUES, ([](const std::uint64_t *v) { return listed{v[0], v[1]}; }),
                           l.states, l.symbols, BASILVAULT_SPAN(table), BASILVAULT_SPAN(list));
}
// The guesses made.
inline auto search(words list, std::size_t variables, std::uint64_t budget, byte_buffer values, limits l = {}) noexcept {
    return BASILVAULT_CALL(basilvault_search_within, BASILVAULT_SEARCH_VALUES, detail::only, l.states, l.symbols, BASILVAULT_SPAN(list), variables, budget,
                           BASILVAULT_SPAN(values));
}
// The class count.
inline auto check(bytes table, bytes map, limits l = {}) noexcept {
    return BASILVAULT_CALL(basilvault_check_within, BASILVAULT_CHECK_VALUES, detail::only, l.states, l.symbols, BASILVAULT_SPAN(table), BASILVAULT_SPAN(map));
}
// The quotient's length.
inline auto quotient(bytes table, bytes map, byte_buffer out, limits l = {}) noexcept {
    return BASILVAULT_CALL(basilvault_quotient_within, BASILVAULT_QUOTIENT_VALUES, detail::only, l.states, l.symbols, BASILVAULT_SPAN(table),
                           BASILVAULT_SPAN(map), BASILVAULT_SPAN(out));
}
inline auto reduce(bytes table, std::uint64_t budget, word_buffer list, byte_buffer map, byte_buffer out, limits l = {}) noexcept {
    return BASILVAULT_CALL(basilvault_reduce_within, BASILVAULT_REDUCE_VALUES, detail::as_reduced, l.states, l.symbols, BASILVAULT_SPAN(table), budget,
                           BASILVAULT_SPAN(list), BASILVAULT_SPAN(map), BASILVAULT_SPAN(out));
}
inline auto uses(bytes table, bytes map, bytes lines, limits l = {}) noexcept {
    return BASILVAULT_CALL(basilvault_uses_within, BASILVAULT_USES_VALUES, detail::as_by_state, l.states, l.symbols, BASILVAULT_SPAN(table),
                           BASILVAULT_SPAN(map), BASILVAULT_SPAN(lines));
}
// 1 for the first map, 2 for the second.
inline auto choose(bytes table, bytes first, bytes second, limits l = {}) noexcept {
    return BASILVAULT_CALL(basilvault_choose_within, BASILVAULT_CHOOSE_VALUES, detail::only, l.states, l.symbols, BASILVAULT_SPAN(table),
                           BASILVAULT_SPAN(first), BASILVAULT_SPAN(second));
}
// Whether the table accepts the script.
inline auto script(bytes table, bytes symbols, limits l = {}) noexcept {
    return BASILVAULT_CALL(basilvault_script_within, BASILVAULT_SCRIPT_VALUES, detail::yes, l.states, l.symbols, BASILVAULT_SPAN(table),
                           BASILVAULT_SPAN(symbols));
}
inline auto records(bytes table, bytes map, byte_buffer out, limits l = {}) noexcept {
    return BASILVAULT_CALL(basilvault_records_within, BASILVAULT_RECORDS_VALUES, ([](const std::uint64_t *v) { return recorded{v[0], v[1], v[2], v[3]}; }),
                           l.states, l.symbols, BASILVAULT_SPAN(table), BASILVAULT_SPAN(map), BASILVAULT_SPAN(out));
}
// The table's length.
inline auto generate(const load &g, byte_buffer out, limits l = {}) noexcept {
    return BASILVAULT_CALL(basilvault_generate_within, BASILVAULT_GENERATE_VALUES, detail::only, l.states, l.symbols, g.seed, g.states, g.internals, g.calls,
                           g.returns, g.density, BASILVAULT_SPAN(out));
}
// Whether the second table accepts every word of the first.
inline auto fit(bytes first, bytes second) noexcept {
    return BASILVAULT_CALL(basilvault_fit, BASILVAULT_FIT_VALUES, detail::yes, BASILVAULT_SPAN(first), BASILVAULT_SPAN(second));
}

inline auto intersection(bytes first, bytes second, byte_buffer out, limits l = {}) noexcept {
    return BASILVAULT_CALL(basilvault_intersection_within, BASILVAULT_INTERSECTION_VALUES, detail::only, l.states, l.symbols, BASILVAULT_SPAN(first),
                           BASILVAULT_SPAN(second), BASILVAULT_SPAN(out));
}

// basilvault_union: the word alone is C++'s.
inline auto union_of(bytes first, bytes second, byte_buffer out, limits l = {}) noexcept {
    return BASILVAULT_CALL(basilvault_union_within, BASILVAULT_UNION_VALUES, detail::only, l.states, l.symbols, BASILVAULT_SPAN(first), BASILVAULT_SPAN(second),
                           BASILVAULT_SPAN(out));
}
inline auto season(bytes tables, span<const std::uint64_t> lengths, std::uint64_t guesses, word_buffer list, byte_buffer maps, byte_buffer out,
                   limits l = {}) noexcept {
    return BASILVAULT_CALL(basilvault_season_within, BASILVAULT_SEASON_VALUES, detail::as_season, l.states, l.symbols, BASILVAULT_SPAN(tables),
                           BASILVAULT_SPAN(lengths), guesses, BASILVAULT_SPAN(list), BASILVAULT_SPAN(maps), BASILVAULT_SPAN(out));
}
// clang-format on
#undef BASILVAULT_CALL
#undef BASILVAULT_SPAN

} // namespace basilvault

#endif
