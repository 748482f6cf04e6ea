// Every wrapper of basilvault.hpp, on table T and a damaged table, beside the function that it wraps: `wrappers T DAMAGED`.
#include "basilvault.hpp"

#include <cstdio>
#include <cstdlib>
#include <fstream>
#include <iterator>
#include <vector>

namespace bv = basilvault;
using byte_vector = std::vector<std::uint8_t>;

static void expect(bool holds, const char *what) {
    if (!holds) {
        std::printf("%s is not as it should be\n", what);
        std::exit(1);
    }
}

static byte_vector of_file(const char *path) {
    std::ifstream file(path, std::ios::binary);
    return byte_vector(std::istreambuf_iterator<char>(file), {});
}

static void try_map(const byte_vector &t, const byte_vector &map, const byte_vector &small) {
    byte_vector out(BASILVAULT_LONGEST_FILE);
    const std::array<std::uint8_t, 4> own{0, 1, 2, 3}, wrong{0, 1, 1, 1};
    expect(bv::check(t, map).value == 3 && bv::check(t, wrong).number == BASILVAULT_REFUSED_LOOKS && bv::check(t, wrong).value == 0, "check");
    expect(bv::choose(t, own, map).value == 2 && bv::choose(t, map, own).value == 1 && bv::choose(t, wrong, wrong).number == 40, "choose");
    const auto length = bv::quotient(t, map, out);
    expect(length && length.value == small.size() && byte_vector(out.begin(), out.begin() + 31) == small, "quotient");
    const auto fates = bv::records(t, map, out);
    expect(fates.value.records == 5 && fates.value.kept == 4 && fates.value.folded == 1 && fates.value.dead == 0 && out[2] == 1, "records");
    const std::uint8_t lines[] = {1, 10, 0, 0, 0, 2, 5, 0, 0, 0};
    const auto sums = bv::uses(t, map, lines);
    expect(sums.value.each[1] == 15 && sums.value.each[0] == 0 && sums.value.all == 15, "uses");
    expect(bv::fit(t, small).value && bv::fit(t, small) && bv::fit(byte_vector{}, small).number == 1, "fit");
    const auto both = bv::intersection(t, small, out), one = bv::intersection(t, byte_vector{}, out);
    expect(both && bv::fit(bv::bytes(out.data(), both.value), t).value && one.number == 1, "intersection");
    const auto either = bv::union_of(t, small, out);
    expect(either && bv::fit(bv::bytes(out.data(), either.value), t).value && bv::union_of(t, t, out, {7, 32}).number == 35, "union_of");
}

static void try_words(const byte_vector &t) {
    std::vector<std::uint16_t> list(100);
    const auto found = bv::clauses(t, list);
    expect(found.value.clauses == 23 && found.value.words == 72, "clauses");
    std::uint8_t values[6] = {};
    const auto guesses = bv::search(bv::words(list.data(), 72), 6, 100, values);
    expect(guesses && guesses.value == 1 && values[2] == 1 && values[0] == 0, "search");
    const std::uint8_t yes[] = {1, 0, 2}, no[] = {0}, past[] = {3};
    expect(bv::script(t, yes).value && !bv::script(t, no).value && bv::script(t, no) && bv::script(t, past).number == 30, "script");
    const auto tops = bv::tops(t);
    expect(tops.value.all == 4 && tops.value.each[1] == 1 && tops.value.each[0] == std::uint64_t{1} << 40, "tops");
}

static void try_several(const byte_vector &t, const byte_vector &damaged) {
    byte_vector both(t), maps(80), out(2 * BASILVAULT_LONGEST_FILE);
    both.insert(both.end(), damaged.begin(), damaged.end());
    const std::array<std::uint64_t, 2> lengths{t.size(), damaged.size()};
    std::vector<std::uint16_t> list(100);
    const auto season = bv::season(both, lengths, 100, list, maps, out);
    expect(season && season.value[0].number == 0 && season.value[0].value.classes == 3 && season.value[1].number == 8 && !season.value[0].value.spent, "season");
    expect(bv::season(both, {}, 100, list, maps, out).number == BASILVAULT_REFUSED_LENGTHS, "a season of none");
    const auto made = bv::generate({7, 40, 1, 1, 1, 100}, out, {40, 64});
    expect(made && bv::read(bv::bytes(out.data(), made.value), {40, 64}) && bv::generate({7, 40, 1, 1, 1, 100}, out).number == 35, "generate");
}

int main(int count, char **names) {
    expect(count == 3, "the call");
    const byte_vector t = of_file(names[1]), damaged = of_file(names[2]);
    byte_vector map(4), out(BASILVAULT_LONGEST_FILE);
    std::vector<std::uint16_t> list(100);
    const auto starts = bv::read(t);
    expect(starts && starts.value.symbols == 0 && starts.value.states == 3 && starts.value.internals == 7 && starts.value.calls == 16 && starts.value.returns == 19, "read");
    expect(bv::read(damaged).number == BASILVAULT_REFUSED_ORDER && bv::read(t, {3, 64}).number == 4 && bv::read(t, {41, 64}).number == 39, "a refusal");
    const auto reduced = bv::reduce(t, 100, list, map, out);
    expect(reduced && reduced.value.classes == 3 && reduced.value.guesses == 1 && reduced.value.words == 24 && reduced.value.length == 31, "reduce");
    expect(reduced.value.joined == 1 && reduced.value.ceiling == 1 && !reduced.value.spent && bv::reduce(t, 0, list, map, out).value.spent, "reduce, spent");
    expect(bool(bv::reduce(t, 100, list, map, out)) && map == byte_vector({0, 1, 1, 2}), "the map");
    try_map(t, map, byte_vector(out.begin(), out.begin() + 31));
    try_words(t);
    try_several(t, damaged);
    std::puts("every wrapper answers as its function");
}
