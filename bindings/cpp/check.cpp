// The C++ interface against std::vector<bool> and plain loops. check [SEED [TURNS]]
#include "shapes.hpp"

static void bits_case()
{
    std::vector<bool> model = random_model(random_size());
    bitm::bits b(model.begin(), model.end());
    same(b, model);
    for (int turn = 0; turn < 40; turn++) {
        const u64 n = model.size(), at = below(n), to = at + below(n - at + 1);
        const auto m = [&](u64 i) { return model.begin() + static_cast<std::ptrdiff_t>(i); };
        const bool value = below(2);
        switch (below(25)) {
        case 0: if (n) b.set(at, value), model[at] = value; break;
        case 1: if (n) b[at] = value, model[at] = value; break;
        case 2:
            if (n) {
                b.flip(at), model[at].flip();
                CHECK(b.test_set(at, value) == model[at]);
                model[at] = value;
            }
            break;
        case 3: b.push_back(value), model.push_back(value); break;
        case 4: if (n) b.pop_back(), model.pop_back(); break;
        case 5: b.fill(at, to, value), std::fill(m(at), m(to), value); break;
        case 6: b.flip(at, to), std::transform(m(at), m(to), m(at), [](bool x) { return !x; }); break;
        case 7: { const u64 size = random_size(); b.resize(size, value), model.resize(size, value); break; }
        case 8: {
            const u64 number = random_numbers();
            const std::uint32_t len = static_cast<std::uint32_t>(below(65));
            b.append(number, len);
            for (std::uint32_t i = 0; i < len; i++) model.push_back(number >> i & 1);
            break;
        }
        case 9: {
            const auto other = random_model(random_size());
            bitm::bits longer(other.begin(), other.end());
            if (value) longer.append(~u64{}, 64);
            b.append(bitm::bits_view(longer.words(), other.size())),
                model.insert(model.end(), other.begin(), other.end());
            break;
        }
        case 10:
            if (n < 3000) {
                b.append(b);
                const auto copy = model;
                model.insert(model.end(), copy.begin(), copy.end());
            }
            break;
        case 11: case 12: case 13: case 14: {
            const auto other = random_model(n);
            // a view with 1 bits past its end
            bitm::bits longer(other.begin(), other.end());
            longer.append(~u64{}, 64);
            const bitm::bits exact(other.begin(), other.end());
            const bitm::bits_view view(longer.words(), n);
            same(view, other);
            CHECK(view == exact && exact == view && !(view != exact));
            std::vector<u64> both, mine = positions(model, true), its = positions(other, true);
            std::set_intersection(mine.begin(), mine.end(), its.begin(), its.end(), std::back_inserter(both));
            CHECK(b.intersects(view) == !both.empty() && b.is_subset_of(exact) == (both == mine) &&
                  view.is_subset_of(b) == (both == its));
            CHECK(b.is_proper_subset_of(view) == (both == mine && mine != its));
            CHECK((b == view) == (model == other));
            const u64 which = below(4);
            if (which == 0) b &= view; else if (which == 1) b |= exact; else if (which == 2) b ^= view; else b -= view;
            for (u64 i = 0; i < n; i++)
                model[i] = which == 0   ? model[i] && other[i]
                           : which == 1 ? model[i] || other[i]
                           : which == 2 ? model[i] != other[i]
                                        : model[i] && !other[i];
            break;
        }
        case 15: {
            const u64 by = below(n + 70);
            std::vector<bool> shifted(n);
            for (u64 i = 0; i + by < n; i++) shifted[i + by] = model[i];
            if (value) b <<= by; else b = b << by;
            model = shifted;
            break;
        }
        case 16: {
            const u64 by = below(n + 70);
            std::vector<bool> shifted(n);
            for (u64 i = 0; i + by < n; i++) shifted[i] = model[i + by];
            b >>= by, model = shifted;
            break;
        }
        case 17: {
            const bitm::bits cut = b.slice(at, to);
            same(cut, std::vector<bool>(m(at), m(to)));
            b.shrink_to_fit(), b.reserve(below(9000));
            break;
        }
        case 20: // a view of some of its own words, which move
            if (n > 64 && n < 3000) {
                const bitm::bits_view later(bitm::words_in(b.words_data() + 1, b.words_len() - 1), n - 64);
                const std::vector<bool> copy(m(64), model.end());
                b.append(later), model.insert(model.end(), copy.begin(), copy.end());
            }
            break;
        case 21: // its words from the second on, with the first again after it; and with itself, moved by a word
            if (n % 64 == 0 && n >= 128) {
                const std::vector<bool> old = model;
                b.push_back(false), b.resize(n + 64);
                const bitm::bits_view later(bitm::words_in(b.words_data() + 1, b.words_len() - 1));
                b.resize(n), b &= later;
                for (u64 i = 0; i < n; i++) model[i] = old[i] && i + 64 < n && old[i + 64];
            }
            break;
        case 18: {
            b = ~b;
            model.flip();
            b ^= *&b;
            CHECK(b.none());
            std::fill(model.begin(), model.end(), false);
            break;
        }
        case 22: {
            const std::uint32_t len = static_cast<std::uint32_t>(below(65));
            const u64 number = random_numbers();
            if (at + len > n) {
                THROWS(std::out_of_range, b.xor_bits(at, len, number));
                break;
            }
            b.xor_bits(at, len, number);
            for (std::uint32_t i = 0; i < len; i++) model[at + i] = model[at + i] != (number >> i & 1);
            break;
        }
        case 23: {
            const std::uint32_t width = 1 + static_cast<std::uint32_t>(below(64));
            if (n < width) {
                THROWS(std::out_of_range, b.swap_fragments(0, 0, width));
                break;
            }
            const u64 i = below(n / width), k = below(n / width);
            b.swap_fragments(i, k, width);
            if (i != k) std::swap_ranges(m(i * width), m((i + 1) * width), m(k * width));
            break;
        }
        case 24: {
            const std::uint32_t width = 1 + static_cast<std::uint32_t>(below(64));
            const u64 number = random_numbers(), count = below(n / width + 1);
            b.fill_fragments(width, number, count);
            for (u64 i = 0; i < count * width; i++) model[i] = number >> i % width & 1;
            THROWS(std::out_of_range, b.fill_fragments(width, number, n / width + 1));
            break;
        }
        default: {
            const u64 number = random_numbers();
            const std::uint32_t len = static_cast<std::uint32_t>(below(65));
            if (at + len > n) { THROWS(std::out_of_range, b.set_bits(at, len, number)); break; }
            b.set_bits(at, len, number);
            for (std::uint32_t i = 0; i < len; i++) model[at + i] = number >> i & 1;
        }
        }
        CHECK(b.size() == model.size() && std::equal(b.begin(), b.end(), model.begin(), model.end()));
        CHECK(b.size() == 0 || b.size() % 64 == 0 || b.words()[b.words_len() - 1] >> b.size() % 64 == 0);
        CHECK(reinterpret_cast<std::uintptr_t>(b.words_data()) % 64 == 0);
    }
    same(b, model), same(b.view(), model);
    bitm::bits copy = b, moved = std::move(b);
    CHECK(copy == moved && b.empty() && std::hash<bitm::bits>()(copy) == std::hash<bitm::bits>()(moved));
    same(b, {}), b.push_back(true), same(b, {true});
    b = std::move(moved), same(b, model), swap(b, copy), b = *&b, same(b, model);
    std::ostringstream text;
    text << b;
    CHECK(bitm::bits(text.str()) == b);
    const auto ones = positions(model, true);
    CHECK(bitm::bits::of_positions(ones, model.size()) == b);
    [[maybe_unused]] const std::uint64_t past = ones.empty() ? model.size() : ones.back();
    THROWS(std::out_of_range, bitm::bits::of_positions({0, past, past}, past));
}

static void index_against(const bitm::rank_index &x, const std::vector<bool> &model)
{
    const u64 n = model.size();
    const auto ones = positions(model, true), zeros = positions(model, false);
    std::vector<u64> before(1);
    for (const bool bit : model) before.push_back(before.back() + bit);
    CHECK(x.size() == n && x.check() && x.count() == ones.size() && x.count0() == zeros.size());
    std::vector<u64> positions_queried, ranks_queried;
    const bitm::rank_index_view v = x.view();
    for (int turn = 0; turn < 12; turn++) {
        const u64 at = below(n + 1), rank = below(n + 3), past = n + 1 + below(100);
        CHECK(x.rank(at) == before[at] && v.rank0(at) == at - before[at] && *x.try_rank(at) == before[at]);
        CHECK(x.select(rank) == (rank < ones.size() ? bitm::maybe_position(ones[rank]) : bitm::maybe_position()));
        CHECK(v.select0(rank) == (rank < zeros.size() ? bitm::maybe_position(zeros[rank]) : bitm::maybe_position()));
        CHECK(*x.try_select(rank) == x.select(rank) && *v.try_select0(rank) == x.select0(rank));
        CHECK(x.next_one(at) == at_least(ones, at) && v.next_zero(at) == at_least(zeros, at));
        CHECK(x.previous_one(at) == at_most(ones, at) && v.previous_zero(past) == at_most(zeros, past));
        CHECK(!x.try_rank(past) && x.try_rank(past).error() == (bitm::failure{bitm::errc::outside, past, n}));
        THROWS(std::out_of_range, x.rank(past));
        if (at < n) CHECK(x[at] == model[at]);
        else THROWS(std::out_of_range, v[at]);
        positions_queried.push_back(below(4) ? at : past), ranks_queried.push_back(rank);
    }
    std::vector<u64> r(12), r0(12), s(12), s0(12);
    x.rank(positions_queried, r), v.rank0(positions_queried, r0), x.select(ranks_queried, s),
        v.select0(ranks_queried, s0);
    for (std::size_t i = 0; i < 12; i++) {
        const u64 at = positions_queried[i], rank = ranks_queried[i];
        CHECK(r[i] == (at <= n ? before[at] : bitm::no_answer) &&
              r0[i] == (at <= n ? at - before[at] : bitm::no_answer));
        CHECK(s[i] == (rank < ones.size() ? ones[rank] : bitm::no_answer) &&
              s0[i] == (rank < zeros.size() ? zeros[rank] : bitm::no_answer));
    }
    std::vector<u64> few(3);
    THROWS(std::invalid_argument, (x.rank(positions_queried, few), 0));
    same(x.as_bits(), model);
    const auto walk = x.ones();
    CHECK(std::equal(walk.begin(), walk.end(), ones.begin(), ones.end()));
}

static std::string scratch;

static void index_case()
{
    const auto model = random_model(below(6) ? random_size() : 20000 + below(20000));
    const bitm::bits b(model.begin(), model.end());
    const auto log2 = [] { return below(2) ? 0 : 7 + static_cast<std::uint32_t>(below(25)); };
    const bitm::sampling how{log2(), log2()};
    bitm::rank_index x(b, how);
    index_against(x, model);
    const bitm::rank_index copy = x;
    index_against(copy, model);
    bitm::rank_index moved = std::move(x);
    index_against(moved, model), index_against(x, {});
    CHECK(moved == copy && (x == copy) == model.empty() &&
          std::hash<bitm::rank_index>()(moved) == std::hash<bitm::rank_index>()(copy));
    swap(x, moved), moved = x, index_against(moved, model), x = std::move(moved), index_against(x, model);
    // Files.
    x.save(scratch);
    index_against(bitm::rank_index::map(scratch), model),
        index_against(bitm::rank_index::load(scratch, bitm::verify::yes), model);
    std::stringstream stream;
    x.save(stream) << "and more after it";
    const bitm::rank_index streamed = bitm::rank_index::load(stream);
    index_against(streamed, model);
    std::string rest;
    std::getline(stream, rest);
    CHECK(rest == "and more after it");
    CHECK(std::equal(streamed.bytes().begin(), streamed.bytes().end(), x.bytes().begin(), x.bytes().end()));
    index_against(bitm::rank_index::of_bytes(x.bytes()), model);
    const std::vector<u64> words(reinterpret_cast<const u64 *>(x.bytes().data()),
                                 reinterpret_cast<const u64 *>(x.bytes().data() + x.bytes().size()));
    CHECK(bitm::rank_index_view::in(words) == x && bitm::rank_index_view::in(words).check());
    // A file that is cut, and one with a byte changed: refused, or its answers are safe.
    std::vector<unsigned char> bytes(x.bytes().begin(), x.bytes().end());
    const auto refused =
        bitm::rank_index::try_of_bytes({bytes.data(), bytes.size() - 8 * (1 + below(bytes.size() / 8))});
    CHECK(!refused && refused.error().code == bitm::errc::wrong_file);
    for (int turn = 0; turn < 6; turn++) {
        auto wrong = bytes;
        wrong[below(wrong.size())] ^= static_cast<unsigned char>(1 + below(255));
        const auto y = bitm::rank_index::try_of_bytes(wrong);
        if (!y) continue;
        for (int query = 0; query < 10; query++) {
            const u64 at = below(y->size() + 1);
            if (const auto rank = y->try_rank(at)) CHECK(*rank <= at);
            if (const auto found = y->try_select(at); found && *found) CHECK(**found < y->size() && (*y)[**found]);
            if (const auto found = y->try_select0(at); found && *found) CHECK(**found < y->size() && !(*y)[**found]);
        }
    }
    // 1 bits past the end of a view are not in the file.
    bitm::bits longer = b;
    longer.append(~u64{}, 64);
    const bitm::rank_index cut(bitm::bits_view(longer.words(), b.size()), how);
    CHECK(std::equal(cut.bytes().begin(), cut.bytes().end(), x.bytes().begin(), x.bytes().end()));
    THROWS(bitm::wrong_file, bitm::rank_index::load("no/such/file"));
    THROWS(std::invalid_argument, bitm::rank_index(b, {6, 0}));
    THROWS(std::invalid_argument, bitm::rank_index(std::vector<u64>{1}, 65));
}

static void sequence_case()
{
    std::vector<u64> numbers(below(3) ? below(200) : below(5000));
    const u64 bits = below(64) + 1;
    for (u64 &it : numbers) it = random_numbers() >> (64 - bits);
    std::sort(numbers.begin(), numbers.end());
    bitm::sequence s(numbers);
    const auto against = [&](const bitm::sequence &of) {
        CHECK(of.size() == numbers.size() && of.check());
        CHECK(std::equal(of.begin(), of.end(), numbers.begin(), numbers.end()));
        CHECK(std::equal(of.rbegin(), of.rend(), numbers.rbegin(), numbers.rend()));
        std::vector<u64> walked;
        for (const u64 it : of.walk()) walked.push_back(it);
        CHECK(walked == numbers);
        CHECK(of.last_at_most(~u64{}) == (numbers.empty() ? bitm::maybe_position() : numbers.size() - 1));
        std::vector<u64> queried, at_indexes;
        for (int turn = 0; turn < 10; turn++) {
            const u64 value = below(3) && !numbers.empty() ? numbers[below(numbers.size())] + below(3) - 1
                                                           : random_numbers() >> (64 - bits);
            const auto lower = std::lower_bound(numbers.begin(), numbers.end(), value);
            const auto upper = std::upper_bound(numbers.begin(), numbers.end(), value);
            const u64 first = static_cast<u64>(lower - numbers.begin()),
                      end = static_cast<u64>(upper - numbers.begin());
            CHECK(of.first_at_least(value) ==
                      (lower == numbers.end() ? bitm::maybe_position() : bitm::maybe_position(first)) &&
                  of.rank(value) == first);
            CHECK(of.last_at_most(value) == (end ? bitm::maybe_position(end - 1) : bitm::maybe_position()) &&
                  of.contains(value) == (first != end));
            CHECK(static_cast<u64>(std::lower_bound(of.begin(), of.end(), value) - of.begin()) == first);
            queried.push_back(value);
            if (!numbers.empty()) at_indexes.push_back(below(numbers.size()));
            auto walk = of.walk(below(first + 1));
            CHECK(walk.advance_to(value) == (lower != numbers.end()) &&
                  (!walk || (walk.position() >= first && *walk >= value)));
        }
        std::vector<u64> found(queried.size()), got(at_indexes.size());
        of.first_at_least(queried, found), of.at(at_indexes, got);
        for (std::size_t i = 0; i < queried.size(); i++)
            CHECK(found[i] == of.first_at_least(queried[i]).value_or(bitm::no_answer));
        for (std::size_t i = 0; i < got.size(); i++) CHECK(got[i] == numbers[at_indexes[i]]);
        THROWS(std::out_of_range, of[numbers.size()]);
    };
    against(s);
    bitm::sequence copy = s, moved = std::move(s);
    against(copy), against(moved);
    CHECK(s.empty() && copy == moved && (s == copy) == numbers.empty() &&
          std::hash<bitm::sequence>()(copy) == std::hash<bitm::sequence>()(moved));
    moved.save(scratch), against(bitm::sequence::map(scratch)),
        against(bitm::sequence::load(scratch, bitm::verify::yes));
    CHECK(bitm::sequence_view(moved.raw()) == moved && !bitm::rank_index::try_load(scratch));
    if (numbers.size() > 1 && numbers.front() != numbers.back()) {
        std::vector<u64> falling = numbers;
        std::swap(falling.front(), falling.back());
        const auto refused = bitm::sequence::try_of(falling);
        CHECK(!refused);
        THROWS(std::invalid_argument, bitm::sequence(falling));
    }
    std::vector<u64> others(below(3000));
    for (u64 &it : others)
        it = below(2) && !numbers.empty() ? numbers[below(numbers.size())] : random_numbers() >> (64 - bits);
    std::sort(others.begin(), others.end());
    const std::set<u64> x(numbers.begin(), numbers.end()), y(others.begin(), others.end());
    std::vector<u64> both, met;
    std::set_intersection(x.begin(), x.end(), y.begin(), y.end(), std::back_inserter(both));
    intersect(moved, bitm::sequence(others), [&](u64 it) { met.push_back(it); });
    CHECK(both == met);
}

static void hash_case()
{
    std::set<u64> keys;
    const u64 n = below(4) ? below(300) : below(20000);
    while (keys.size() < n) keys.insert(random_numbers());
    const bitm::perfect_hash h(
        keys.begin(), keys.end(), [](u64 key) { return key; }, 100 + static_cast<unsigned>(below(101)));
    CHECK(h.size() == n && h.check());
    std::vector<bool> used(n);
    for (const u64 key : keys) {
        const bitm::maybe_position number = h(key);
        CHECK(number && *number < n && !used[*number]);
        if (number && *number < n) used[*number] = true;
    }
    for (int turn = 0; turn < 20; turn++) CHECK(h(random_numbers()).value_or(0) < std::max<u64>(n, 1));
    const std::vector<u64> all(keys.begin(), keys.end());
    std::vector<u64> numbers(n);
    h(all, numbers);
    for (std::size_t i = 0; i < n; i++) CHECK(numbers[i] == *h(all[i]));
    std::stringstream stream;
    h.save(stream) << "more";
    CHECK(bitm::perfect_hash::load(stream, bitm::verify::yes) == h && stream.get() == 'm');
    h.save(scratch);
    bitm::perfect_hash again = bitm::perfect_hash::map(scratch, bitm::verify::yes), copy = again;
    CHECK(again == h && copy == h);
    copy = std::move(again);
    CHECK(again.empty() && !again(7) && copy == h);
    std::vector<u64> twice(all);
    twice.push_back(17), twice.push_back(17);
    const auto refused = bitm::perfect_hash::try_of(twice);
    CHECK(!refused && refused.error().code == bitm::errc::equal_keys);
}

int main(int argc, char **argv)
{
    if (argc > 1) random_numbers.seed(std::strtoull(argv[1], nullptr, 10));
    const int turns = argc > 2 ? std::atoi(argv[2]) : 300;
    scratch = argv[0] + std::string(".scratch");
    once();
    for (int turn = 0; turn < turns; turn++) {
        bits_case(), index_case(), sequence_case();
        if (turn % 8 == 0) hash_case();
    }
    std::remove(scratch.c_str());
    std::printf("%llu checks, %llu failures\n", checks, failures);
    return failures != 0;
}
