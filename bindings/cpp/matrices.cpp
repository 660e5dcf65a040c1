// Lists of numbers in C++ beside plain vectors: owners, views, ranges, lists, files, threads; numbers that are too
// wide, blocks that are spoilt or cut, and what is left of an owner that was moved.
#include "blocks.hpp"

#include <list>
#include <map>

using Matrix = bitm::wavelet_matrix;
using View = bitm::wavelet_matrix_view;

static Words drawn(u64 count, unsigned bits)
{
    Words numbers(count);
    for (u64 &it : numbers) it = draw() % 3 ? draw() >> (64 - bits) : draw() % 3 & ((u64{1} << (bits - 1)) * 2 - 1);
    return numbers;
}

// The answers about a range, by sorting it.
template <class M> static void range(const M &m, const Words &plain, u64 from, u64 to, u64 asked)
{
    const auto at = [&](u64 i) { return plain.begin() + static_cast<std::ptrdiff_t>(i); };
    Words part(at(from), at(to));
    std::sort(part.begin(), part.end());
    const auto bound = std::lower_bound(part.begin(), part.end(), asked);
    MUST(m.count_less(from, to, asked) == static_cast<u64>(bound - part.begin()));
    MUST(m.next_value(from, to, asked) == (bound == part.end() ? maybe_position() : *bound));
    MUST(m.previous_value(from, to, asked) == (bound == part.begin() ? maybe_position() : bound[-1]));
    for (const u64 k : {u64{0}, u64{part.size() / 2}, u64{part.size()}, ~u64{}})
        MUST(m.quantile(from, to, k) == (k < part.size() ? maybe_position(part[k]) : std::nullopt));
    MUST(m.try_count_less(from, to, asked).value() == m.count_less(from, to, asked));
    MUST(m.try_next_value(from, to, asked).value() == m.next_value(from, to, asked));
    MUST(m.try_previous_value(from, to, asked).value() == m.previous_value(from, to, asked));
    MUST(m.try_quantile(from, to, 0).value() == m.quantile(from, to, 0));
}

// The lists of a range and of another, beside a map of how often each number is there.
template <class M> static void lists_of_ranges(const M &m, const Words &plain, u64 from, u64 to)
{
    std::map<u64, u64> counts, others;
    const u64 n = plain.size(), other = draw() % (n + 1), room = draw() % 5 ? draw() % 9 : n;
    for (u64 i = from; i < to; i++) counts[plain[i]]++;
    for (u64 i = other; i < n; i++) others[plain[i]]++;
    const u64 least = n && draw() % 2 ? plain[draw() % n] : 0;
    Words numbers(room), of_each(room), wanted, often, shared;
    std::vector<std::pair<u64, u64>> all(counts.begin(), counts.end());
    for (const auto &it : all)
        if (it.first >= least && wanted.size() < room) wanted.push_back(it.first), often.push_back(it.second);
    for (const auto &it : all)
        if (it.first >= least && others.count(it.first) && shared.size() < room) shared.push_back(it.first);
    const auto are = [&](std::size_t written, const Words &these) {
        return written == these.size() && std::equal(these.begin(), these.end(), numbers.begin());
    };
    MUST(are(m.distinct(from, to, least, numbers, of_each), wanted) &&
         std::equal(often.begin(), often.end(), of_each.begin()));
    MUST(are(m.intersect(from, to, other, n, least, numbers), shared));
    std::stable_sort(all.begin(), all.end(), [](const auto &a, const auto &b) { return a.second > b.second; });
    wanted.clear(), often.clear();
    for (u64 i = 0; i < all.size() && i < room; i++) wanted.push_back(all[i].first), often.push_back(all[i].second);
    MUST(are(m.top(from, to, numbers, of_each), wanted) && std::equal(often.begin(), often.end(), of_each.begin()));
}

template <class M> static void outside(const M &m)
{
    const u64 n = m.size();
    const std::pair<u64, u64> ranges[] = {{0, n + 1}, {n + 1, n + 1}, {1, 0}, {0, ~u64{}}, {~u64{}, 0}};
    for (const auto &it : ranges) {
        MUST(throws<std::out_of_range>([&] { (void)m.count_less(it.first, it.second, 1); }));
        MUST(throws<std::out_of_range>([&] { (void)m.quantile(it.first, it.second, 0); }));
        Words room(4), less(3);
        MUST(throws<std::out_of_range>([&] { (void)m.distinct(it.first, it.second, 0, room, room); }));
        MUST(throws<std::out_of_range>([&] { (void)m.top(it.first, it.second, room, less); }));
        MUST(throws<std::out_of_range>([&] { (void)m.intersect(0, 0, it.first, it.second, 0, room); }));
        MUST(throws<std::out_of_range>([&] { (void)m.intersect(it.first, it.second, 0, 0, 0, room); }));
        MUST(throws<std::invalid_argument>([&] { (void)m.top(0, 0, room, less); }));
        MUST(throws<std::invalid_argument>([&] { (void)m.distinct(0, 0, 0, room, room); }));
        MUST(m.try_next_value(it.first, it.second, 1).error().code == bitm::errc::outside);
        MUST(m.try_previous_value(it.first, it.second, 1).error().code == bitm::errc::outside);
    }
    for (const u64 index : {n, n + 1, ~u64{}}) {
        MUST(throws<std::out_of_range>([&] { (void)m[index]; }) &&
             throws<std::out_of_range>([&] { (void)m.at(index); }));
        MUST(m.try_at(index).error() == bitm::failure{bitm::errc::outside, index, n, nullptr});
        MUST(index == n || throws<std::out_of_range>([&] { (void)m.rank(1, index); }));
        MUST(index == n || m.try_rank(1, index).error().code == bitm::errc::outside);
    }
}

template <class M> static void lists(const M &m, const Words &plain)
{
    const u64 n = plain.size();
    Words numbers(300), ends(300), ranks(300), at, out(300), wanted(300);
    for (u64 i = 0; i < 300; i++) {
        numbers[i] = n && i % 3 ? plain[draw() % n] : draw() % 5, ends[i] = draw() % (n + 2), ranks[i] = draw() % 4;
        if (n) at.push_back(draw() % n);
    }
    m.rank(numbers, ends, out);
    for (u64 i = 0; i < 300; i++) MUST(out[i] == (ends[i] <= n ? m.rank(numbers[i], ends[i]) : bitm::no_answer));
    m.select(numbers, ranks, out);
    for (u64 i = 0; i < 300; i++) MUST(out[i] == m.select(numbers[i], ranks[i]).value_or(bitm::no_answer));
    m.at(at, bitm::words_out(out.data(), at.size()));
    for (u64 i = 0; i < at.size(); i++) MUST(out[i] == plain[at[i]]);
    at.assign(300, n);
    MUST(throws<std::out_of_range>([&] { m.at(at, out); }));
    Words less(299);
    MUST(throws<std::invalid_argument>([&] { m.at(at, less); }) &&
         throws<std::invalid_argument>([&] { m.at(at, at); }));
    MUST(throws<std::invalid_argument>([&] { m.rank(numbers, ends, less); }));
    MUST(throws<std::invalid_argument>([&] { m.rank(numbers, less, out); }));
    MUST(throws<std::invalid_argument>([&] { m.select(numbers, ranks, ranks); }));
    MUST(throws<std::invalid_argument>([&] { m.select(numbers, ranks, numbers); }));
    m.rank(bitm::words_in(), bitm::words_in(), bitm::words_out());
}

template <class M> static void same(const M &m, const Words &plain)
{
    const u64 n = plain.size();
    MUST(m.size() == n && m.empty() == plain.empty() && m.check() &&
         std::equal(m.begin(), m.end(), plain.begin(), plain.end()));
    Words asked{0, 1, ~u64{}};
    for (u64 i = 0; i < std::min<u64>(n, 6); i++) asked.push_back(plain[draw() % n]), asked.push_back(asked.back() + 1);
    for (const u64 number : asked) {
        Words indexes;
        for (u64 i = 0; i < n; i++)
            if (plain[i] == number) indexes.push_back(i);
        MUST(m.count(number) == indexes.size() && m.contains(number) == !indexes.empty());
        for (u64 rank = 0; rank < std::min<u64>(indexes.size(), 20); rank++)
            MUST(m.select(number, rank) == indexes[rank]);
        MUST(!m.select(number, indexes.size()) && !m.try_select(number, ~u64{}).value());
        const u64 a = draw() % (n + 1), b = a + draw() % (n - a + 1);
        MUST(m.rank(number, a) ==
             static_cast<u64>(std::lower_bound(indexes.begin(), indexes.end(), a) - indexes.begin()));
        range(m, plain, a, b, number), range(m, plain, 0, n, number), range(m, plain, a, a, number);
        lists_of_ranges(m, plain, a, b), lists_of_ranges(m, plain, 0, n);
    }
    for (u64 i = 0; i < n; i += 1 + n / 50)
        MUST(m[i] == plain[i] && m.at(i) == plain[i] && m.try_at(i).value() == plain[i]);
    outside(m), lists(m, plain);
}

static void refused()
{
    const Words wide{1, 8};
    for (const std::uint32_t width : {1u, 3u}) {
        MUST(Matrix::try_of(wide, width).error().code == bitm::errc::bad_size);
        MUST(throws<std::invalid_argument>([&] { Matrix m(wide, width); }));
    }
    for (const std::uint32_t width : {65u, ~0u}) MUST(!Matrix::try_of(wide, width) && !Matrix::try_of({}, width));
    MUST(Matrix(wide, 4).width() == 4 && Matrix(wide, 64).width() == 64 && Matrix(wide).width() == 4);
    MUST(Matrix({0, 0}).width() == 1 && Matrix({~u64{}}).width() == 64 && Matrix(bitm::words_in()).width() == 1);
}

// A number that is too wide is named, at once and level by level; the levels make the same block.
static void wide_numbers()
{
    const Words wide{1, 255, 3, 0, 300, 256};
    const bitm::failure why = Matrix::try_of(wide, 8).error();
    MUST(why == bitm::failure{bitm::errc::bad_size, 4, 6, "number", 300, 8, bitm::item_fault::too_wide});
    MUST(bitm::message(why) == "bitm: number 4 (300) has more than 8 bits");
    u64 calls = 0;
    const auto count = [&](u64, u64) { calls++; };
    MUST(Matrix::try_of(wide, 8, bitm::quarters::no, bitm::hints::no, count).error() == why);
    MUST(!Matrix::try_of(wide, 65, bitm::quarters::no, bitm::hints::yes, count) && calls == 0);
    MUST(Matrix::try_of(Words{0, u64{1} << 63}, 63).error().at == 1);
}

static void levels(const Words &plain, bitm::quarters kept, bitm::hints led)
{
    for (const std::uint32_t width : {0u, 64u}) {
        const Matrix at_once(plain, width, kept, led);
        told(at_once, at_once.width(), [&](auto step) { return Matrix(plain, width, kept, led, step); });
    }
}

static void owners(const Words &plain)
{
    const Matrix a(plain), b(plain.begin(), plain.end(), 64);
    const std::list<u64> listed(plain.begin(), plain.end());
    MUST(a == Matrix(listed.begin(), listed.end()) && b.width() == 64), same(b, plain);
    const Matrix c(listed.begin(), listed.end(), 64, bitm::quarters::yes);
    MUST(c.block().size() > b.block().size()), same(c, plain);
    const Matrix d(listed.begin(), listed.end(), 64, bitm::quarters::no, bitm::hints::yes);
    MUST(d.raw().hints_len == (d.raw().words_len + 3) / 4 + 1 && b.raw().hints_len == 0), same(d, plain);
    copies_and_moves(
        a, [&](const auto &it) { same(it, plain); }, [](const auto &it) { same(it, {}); });
}

// Answers of a block that may hold anything: inside, or an error.
static void any(const View &m)
{
    const u64 n = m.size(), end = (u64{1} << (m.width() - 1)) * 2 - 1;
    for (u64 i = 0; i <= n; i += 3) {
        const u64 number = draw() & end, from = draw() % (i + 1);
        const auto value = m.try_at(i);
        MUST(!value || (i < n && *value <= end));
        const auto rank = m.try_rank(number, i), less = m.try_count_less(from, i, number);
        MUST((!rank || *rank <= i) && (!less || *less <= i - from));
        const auto found = m.try_select(number, i % 3);
        MUST(!found || !*found || **found < n);
        for (const auto &it :
             {m.try_quantile(from, i, 0), m.try_next_value(from, i, number), m.try_previous_value(from, i, number)})
            MUST(!it || !*it || **it <= end);
        const Words index{i};
        Words one(1);
        if (i == n)
            MUST(throws<std::out_of_range>([&] { m.at(index, one); }));
        else
            MUST(throws<bitm::wrong_tables>([&] { m.at(index, one); }) || one[0] <= end);
    }
}

static void spoilt()
{
    const Matrix m(drawn(90, 5)), led(drawn(90, 5), 0, bitm::quarters::yes, bitm::hints::yes);
    MUST(m.raw().words == m.block().data() + 40 && led.raw().words == led.block().data() + 48);
    spoilt_blocks(m, 40, 1, any), spoilt_blocks(led, 48, 1, any);
}

static void threads()
{
    const Words plain = drawn(2000, 9);
    const Matrix m(plain);
    const View view = m.view();
    std::vector<std::thread> all;
    for (int i = 0; i < 6; i++)
        all.emplace_back([&] {
            for (u64 at = 0; at < 2000; at++)
                MUST(m[at] == plain[at] && view.select(plain[at], 0) <= maybe_position(at));
        });
    for (std::thread &it : all) it.join();
}

int main(int, char **argv)
{
    const std::string path = argv[0] + std::string(".numbers");
    refused(), wide_numbers(), spoilt(), threads();
    std::vector<Words> all{{}, {0}, {~u64{}}, {3, 1, 4, 1, 5, 1}, Words(700, 6)};
    for (u64 count = 1; count < 20; count++) all.push_back(drawn(count * count, 1 + static_cast<unsigned>(count * 3)));
    all.push_back(drawn(3000, 12));
    for (const Words &plain : all) {
        for (const int how : {0, 1, 2, 3}) {
            const bitm::quarters kept = how % 2 ? bitm::quarters::yes : bitm::quarters::no;
            const bitm::hints led = how / 2 ? bitm::hints::yes : bitm::hints::no;
            const Matrix m(plain, 0, kept, led);
            if (plain.size() < 1000) levels(plain, kept, led);
            same(m, plain), files_of(m, path, [&](const auto &it) { same(it, plain); });
        }
    }
    owners(all[3]), owners(all.back());
    std::puts("matrices: ok");
    return 0;
}
