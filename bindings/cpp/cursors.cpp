// Cursors in C++ beside plain loops over lists: moves, ranges, intersections and unions of several in one call, in
// parts and by a function; parts of no sequence, and memory that overlaps.
#include "blocks.hpp"

#include <array>
#include <numeric>
#include <set>

using Sequence = bitm::sequence;
using Cursor = bitm::cursor;
using Cursors = std::vector<Cursor>;
static const u64 most = ~u64{};

// Numbers that do not fall, some of them equal; now and then none, and the greatest.
static Words drawn()
{
    Words all(draw() % 6 ? draw() % 300 : draw() % 3);
    const unsigned shift = static_cast<unsigned>(draw() % 64);
    for (u64 &it : all) it = draw() >> shift;
    if (draw() % 4 == 0) all.push_back(most);
    std::sort(all.begin(), all.end());
    return all;
}

static void stands(const Cursor &it, const Words &all, std::size_t index)
{
    MUST(it.position() == index && it.done() == (index == all.size()) && bool(it) == !it.done());
    if (it)
        MUST(*it == all[index] && it.value() == all[index]);
    else
        MUST(throws<std::out_of_range>([&] { (void)*it; }));
}

// A cursor moves as an index into the list does.
static void moves(const Words &all)
{
    const Sequence of(all.begin(), all.end());
    Cursor it(of), from_view(of.view());
    MUST(from_view.position() == it.position());
    std::size_t index = 0;
    for (int turn = 0; turn < 60; turn++) {
        stands(it, all, index);
        const u64 here = index < all.size() ? all[index] : 9;
        if (draw() % 3 == 0) {
            if (it.done())
                MUST(throws<std::out_of_range>([&] { ++it; }));
            else
                ++it;
            while (index < all.size() && all[index] == here) index++;
        } else {
            const u64 value = draw() % 4   ? here + draw() % 9
                              : draw() % 2 ? all.empty() ? 3 : all[draw() % all.size()]
                                           : draw() % (here | 1);
            while (index < all.size() && all[index] < value) index++;
            maybe_position wanted;
            if (index < all.size()) wanted = all[index];
            MUST(it.next_geq(value) == wanted && it.try_next_geq(value).value() == wanted);
        }
    }
    Cursor copy = it;
    std::set<u64> rest(all.begin() + static_cast<std::ptrdiff_t>(index), all.end()), walked;
    u64 count = 0;
    for (const u64 number : copy) walked.insert(number), count++;
    MUST(walked == rest && count == rest.size() && copy.done() && copy.position() == all.size());
    stands(it, all, index);
}

static Cursors started(const std::vector<Sequence> &all)
{
    Cursors made;
    for (const Sequence &it : all) made.emplace_back(it);
    return made;
}

static std::size_t merge(bool of_all, Cursors &lists, u64 from, bitm::words_out out)
{
    return of_all ? bitm::intersect(lists, from, out) : bitm::unite(lists, from, out);
}

// In parts of some numbers, and by a function, which answer as std::set does.
static void merges()
{
    std::vector<Words> lists(1 + draw() % 5);
    std::vector<Sequence> of;
    const unsigned shift = 50 + static_cast<unsigned>(draw() % 14);
    for (Words &it : lists) {
        it = drawn();
        for (u64 &number : it) number = number == most ? most : number >> shift;
        std::sort(it.begin(), it.end()), of.emplace_back(it.begin(), it.end());
    }
    const u64 from = draw() % 3 ? draw() % 40 : 0;
    for (const bool of_all : {true, false}) {
        std::set<u64> wanted;
        for (const Words &it : lists) wanted.insert(it.begin(), it.end());
        for (const Words &it : lists)
            for (auto at = wanted.begin(); of_all && at != wanted.end();)
                at = std::binary_search(it.begin(), it.end(), *at) ? std::next(at) : wanted.erase(at);
        Words each;
        Cursors at = started(of);
        const auto put = [&](u64 number) { each.push_back(number); };
        if (of_all)
            bitm::intersect(at, put);
        else
            bitm::unite(at, put);
        MUST(each == Words(wanted.begin(), wanted.end()));
        const Words rest(wanted.lower_bound(from), wanted.end());
        Words got, block(1 + draw() % 20, 77);
        at = started(of);
        for (u64 next = from;;) {
            const std::size_t count = merge(of_all, at, next, block);
            got.insert(got.end(), block.begin(), block.begin() + static_cast<std::ptrdiff_t>(count));
            if (count < block.size() || block.back() == most) break;
            next = block.back() + 1;
        }
        MUST(got == rest);
    }
}

// Answers of exactly as many numbers as a block of the calls by a function has, and as a multiple of it.
static void blocks()
{
    for (const u64 count : {u64{63}, u64{64}, u64{65}, u64{128}, u64{1000}}) {
        Words all(count);
        std::iota(all.begin(), all.end(), u64{3});
        for (const bool with_most : {false, true}) {
            if (with_most) all.back() = most;
            const Sequence of(all.begin(), all.end());
            std::array<Cursor, 2> both{Cursor(of), Cursor(of)};
            Words got;
            bitm::intersect(both, [&](u64 it) { got.push_back(it); });
            MUST(got == all);
        }
    }
}

static void none()
{
    std::uint64_t out[2] = {5, 5};
    Cursors no, empty(2);
    MUST(bitm::unite(no, 0, {out, 2}) == 0 && out[0] == 5 && bitm::intersect(empty, 0, {out, 2}) == 0);
    MUST(bitm::try_intersect(no, 0, {out, 2}).error().code == bitm::errc::bad_size);
    MUST(throws<std::invalid_argument>([&] { bitm::intersect(no, 0, {out, 2}); }));
    const Sequence of{7, 8, 9};
    std::array<Cursor, 1> one{Cursor(of)};
    MUST(bitm::unite(one, 0, bitm::words_out()) == 0 && bitm::intersect(one, 8, {out, 1}) == 1 && out[0] == 8);
    MUST(Cursor().done() && Cursor().position() == 0 && !Cursor().next_geq(0) && Cursor(bitm::sequence_view()).done());
}

// Memory that is written overlaps cursors or parts: refused, and nothing moves.
static void overlaps()
{
    const Sequence of{7, 8, 9, 900000};
    Words file(of.bytes().size() / 8);
    std::memcpy(file.data(), of.bytes().data(), of.bytes().size());
    const bitm::sequence_view view = bitm::sequence_view::in(file);
    Cursors at{Cursor(of), Cursor(view)};
    u64 *const inside = reinterpret_cast<u64 *>(at.data() + 1);
    for (const bitm::words_out out :
         {bitm::words_out(inside, 1), bitm::words_out(inside + 14, 3), bitm::words_out(file)}) {
        MUST(bitm::try_unite(at, 0, out).error().code == bitm::errc::overlap);
        MUST(throws<std::invalid_argument>([&] { bitm::intersect(at, 0, out); }));
    }
    MUST(at[0].position() == 0 && *at[1] == 7 && view[3] == 900000);
}

// Parts that hold anything: each call ends, with numbers that rise or an error.
static void spoilt()
{
    for (int turn = 0; turn < 400; turn++) {
        const Words all = drawn();
        const Sequence of(all.begin(), all.end());
        const bitm_sequence &raw = of.raw();
        Words low(raw.low, raw.low + raw.low_len), words(raw.words, raw.words + raw.words_len),
            lower(raw.lower, raw.lower + raw.lower_len);
        for (Words *part : {&low, &words, &lower})
            for (u64 i = draw() % 4; i > 0 && !part->empty(); i--) (*part)[draw() % part->size()] ^= draw() & draw();
        bitm_sequence wrong = raw;
        wrong.low = low.data(), wrong.words = words.data(), wrong.lower = lower.data();
        const auto made = Cursor::try_of(bitm::sequence_view(wrong));
        if (!made) {
            MUST(made.error().code == bitm::errc::wrong);
            MUST(throws<bitm::wrong_tables>([&] { Cursor it((bitm::sequence_view(wrong))); }));
            continue;
        }
        Cursor it = *made;
        for (u64 value = 0; value < 90; value += draw() % 9) {
            const auto got = it.try_next_geq(value);
            MUST(!got || !*got || **got >= value);
        }
        for (const bool of_all : {true, false}) {
            Cursors both{*made, Cursor(of)};
            Words out(50);
            const auto count = of_all ? bitm::try_intersect(both, 2, out) : bitm::try_unite(both, 2, out);
            MUST(count ? *count <= out.size() : count.error().code == bitm::errc::wrong);
            for (std::size_t i = 0; count && i < *count; i++) MUST(out[i] >= (i ? out[i - 1] + 1 : 2));
        }
    }
}

int main()
{
    for (int turn = 0; turn < 400; turn++) moves(drawn()), merges();
    blocks(), none(), overlaps(), spoilt();
    std::puts("cursors: ok");
    return 0;
}
