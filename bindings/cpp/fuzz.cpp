// libFuzzer over the C++ interface: changes of bits against std::vector<bool>, and files that hold anything.
//     clang++ -std=c++17 -g -O1 -fsanitize=fuzzer,address,undefined -Iinclude bindings/cpp/fuzz.cpp ARCHIVE -o fuzz
//     ./fuzz -max_total_time=60 -max_len=4096 corpus
#include <bitm/bitm.hpp>

#include <algorithm>
#include <cstdio>
#include <cstdlib>
#include <fuzzer/FuzzedDataProvider.h>
#include <vector>

using u64 = std::uint64_t;
static void broken(int line, const char *what)
{
    std::printf("line %d: %s\n", line, what);
    std::abort();
}
#define MUST(...) ((__VA_ARGS__) ? void() : broken(__LINE__, #__VA_ARGS__))

static void changes(FuzzedDataProvider &from)
{
    bitm::bits b;
    std::vector<bool> model;
    while (from.remaining_bytes() > 0) {
        const u64 n = model.size(), at = from.ConsumeIntegralInRange<u64>(0, n),
                  to = from.ConsumeIntegralInRange<u64>(at, n);
        const bool value = from.ConsumeBool();
        const auto m = [&](u64 i) { return model.begin() + static_cast<std::ptrdiff_t>(i); };
        switch (from.ConsumeIntegralInRange(0, 12)) {
        case 0: b.push_back(value), model.push_back(value); break;
        case 1: if (at < n) b.set(at, value), model[at] = value; break;
        case 2: b.fill(at, to, value), std::fill(m(at), m(to), value); break;
        case 3: b.flip(at, to), std::transform(m(at), m(to), m(at), [](bool x) { return !x; }); break;
        case 4: {
            const u64 size = from.ConsumeIntegralInRange<u64>(0, 2000);
            b.resize(size, value), model.resize(size, value);
            break;
        }
        case 5: {
            const u64 x = from.ConsumeIntegral<u64>();
            const std::uint32_t len = from.ConsumeIntegralInRange(0u, 64u);
            b.append(x, len);
            for (std::uint32_t i = 0; i < len; i++) model.push_back(x >> i & 1);
            break;
        }
        case 6:
            if (n < 4000) {
                b.append(b);
                const auto c = model;
                model.insert(model.end(), c.begin(), c.end());
            }
            break;
        case 7: b <<= at, model.insert(model.begin(), at, false), model.resize(n); break;
        case 8: b >>= at, model.erase(m(0), m(at)), model.resize(n); break;
        case 9: b = b.slice(at, to), model = std::vector<bool>(m(at), m(to)); break;
        case 10: {
            const std::uint32_t len = static_cast<std::uint32_t>(std::min<u64>(64, n - at));
            const u64 x = from.ConsumeIntegral<u64>();
            b.set_bits(at, len, x);
            for (std::uint32_t i = 0; i < len; i++) model[at + i] = x >> i & 1;
            break;
        }
        case 11: {
            bitm::bits other = b;
            other.flip(at, to);
            const u64 k = from.ConsumeIntegralInRange<u64>(0, 3);
            std::vector<bool> o = model;
            std::transform(o.begin() + static_cast<std::ptrdiff_t>(at), o.begin() + static_cast<std::ptrdiff_t>(to),
                           o.begin() + static_cast<std::ptrdiff_t>(at), [](bool x) { return !x; });
            if (k == 0) b &= other; else if (k == 1) b |= other; else if (k == 2) b ^= other; else b -= other;
            for (u64 i = 0; i < n; i++)
                model[i] = k == 0   ? model[i] && o[i]
                           : k == 1 ? model[i] || o[i]
                           : k == 2 ? model[i] != o[i]
                                    : model[i] && !o[i];
            break;
        }
        default: b.shrink_to_fit();
        }
        if (model.size() > 20000) b.resize(20000), model.resize(20000);
    }
    MUST(b.size() == model.size() && std::equal(b.begin(), b.end(), model.begin()));
    const u64 n = model.size();
    const bitm::rank_index x(b, {from.ConsumeBool() ? 7u : 0u, 0});
    u64 ones = 0;
    auto walk = b.ones().begin();
    for (u64 i = 0; i < n; i++) {
        MUST(x.rank(i) == ones && x[i] == model[i]);
        if (model[i]) MUST(*walk == i && *x.select(ones) == i), ++walk, ones++;
        else MUST(*x.select0(i - ones) == i);
    }
    MUST(walk == b.ones().end() && x.count() == ones && !x.select(ones) && !x.select0(n - ones) && x.check());
}

// The words of a file of which anything follows the first `head`.
static std::vector<u64> with_body(std::vector<u64> file, std::size_t head, const std::vector<unsigned char> &body)
{
    const std::size_t room = 8 * (file.size() - head);
    if (room > 0 && !body.empty()) std::memcpy(file.data() + head, body.data(), std::min(body.size(), room));
    return file;
}
template <class Owner> static std::size_t head_of(const Owner &of)
{
    return static_cast<std::size_t>(bitm::section_at(of.block(), 0).value().words.data() - of.block().data());
}
template <class Owner> static std::vector<u64> block_of(const Owner &of) { return {of.block().begin(), of.block().end()}; }

// An index of which tables and samples may be any.
static void index_answers(const bitm::rank_index_view &x)
{
    const u64 bits = x.size();
    const bool right = x.check();
    const bitm::bits_view bits_of_it = x.as_bits();
    std::vector<u64> q, out(40), out0(40);
    for (u64 i = 0; i < 40; i++) {
        const u64 at = (i * 0x9E3779B97F4A7C15u) % (bits + 2);
        q.push_back(at);
        const auto rank = x.try_rank(at);
        if (at > bits) MUST(!rank && rank.error().code == bitm::errc::outside);
        else if (rank) MUST(*rank <= at && (!right || *rank == bits_of_it.count(0, at)));
        const auto found = x.try_select(at), found0 = x.try_select0(at);
        if (found && *found) MUST(**found < bits && x[**found] && (!right || bits_of_it.count(0, **found) == at));
        if (found0 && *found0) MUST(**found0 < bits && !x[**found0]);
        if (right) MUST(rank.has_value() == (at <= bits) && found && found0);
        try {
            if (const auto next = x.next_one(at)) MUST(!right || next == bits_of_it.next_one(at));
        } catch (const bitm::wrong_tables &) {
            MUST(!right);
        }
    }
    try {
        x.select(q, out), x.select0(q, out0);
    } catch (const bitm::wrong_tables &) {
        MUST(!right);
    }
    for (const u64 it : out) MUST(it < std::max<u64>(bits, 1) || it >= bitm::wrong_answer);
    u64 walked = 0;
    for (const u64 at : x.ones()) MUST(x[at]), walked++;
    MUST(walked == bits_of_it.count());
}

static void any_index(FuzzedDataProvider &from)
{
    // A right header before anything, of a file of version 2 and of a block.
    const u64 bits = from.ConsumeIntegralInRange<u64>(0, 6000), len = bits / 64 + (bits % 64 != 0);
    const std::uint32_t log2 = from.ConsumeBool() ? from.ConsumeIntegralInRange(7u, 31u) : 0,
                        log2_0 = from.ConsumeBool() ? 8u : 0;
    const u64 most = log2 ? bitm_index_samples_len(len, log2) : 0,
              most0 = log2_0 ? bitm_index_samples_len(len, log2_0) : 0;
    bitm_stored header;
    if (bitm_stored_index(bits, log2, from.ConsumeIntegralInRange<u64>(0, most), log2_0, most0, &header) != BITM_OK)
        return;
    std::vector<u64> file(header.size / 8);
    std::memcpy(file.data(), &header, sizeof header);
    const auto body = from.ConsumeRemainingBytes<unsigned char>();
    file = with_body(file, sizeof header / 8, body);
    index_answers(bitm::rank_index_view::in(file));
    const auto anew = bitm::rank_index::of_bytes({reinterpret_cast<const unsigned char *>(file.data()), header.size});
    MUST(anew.check() && anew == bitm::rank_index_view::in(file)), index_answers(anew.view());
    const bitm::rank_index of_it(bitm::bits(bits), {log2, log2_0});
    const std::vector<u64> block = with_body(block_of(of_it), head_of(of_it), body);
    index_answers(bitm::rank_index_view::in(block));
}

// A sequence whose parts may be any.
static void sequence_answers(const bitm::sequence_view &s, u64 largest)
{
    const u64 n = s.size();
    const bool right = s.check();
    u64 steps = 0, last = 0;
    try {
        for (const u64 it : s.walk()) MUST(!right || (it >= last && it == s[steps])), last = it, steps++;
        MUST(!right || steps == n);
    } catch (const bitm::wrong_tables &) {
        MUST(!right);
    }
    MUST(steps <= n);
    for (u64 i = 0; i < 20; i++) {
        const u64 value = largest / 19 * i;
        const auto found = s.try_first_at_least(value), before = s.try_last_at_most(value);
        if (found && *found) MUST(**found < n && (!right || s[**found] >= value));
        if (before && *before) MUST(**before < n && (!right || s[**before] <= value));
        try {
            auto walk = s.walk();
            if (walk.advance_to(value)) MUST(walk.position() < n && (!right || *walk >= value));
        } catch (const bitm::wrong_tables &) {
            MUST(!right);
        }
    }
}

static void any_sequence(FuzzedDataProvider &from)
{
    const u64 n = from.ConsumeIntegralInRange<u64>(0, 400),
              largest = n ? from.ConsumeIntegral<u64>() >> from.ConsumeIntegralInRange(0, 63) : 0;
    bitm_sequence_lens lens;
    bitm_stored header;
    if (bitm_sequence_sizes(n, largest, &lens) != BITM_OK || bitm_stored_sequence(n, &lens, &header) != BITM_OK) return;
    std::vector<u64> file(header.size / 8);
    std::memcpy(file.data(), &header, sizeof header);
    const auto body = from.ConsumeRemainingBytes<unsigned char>();
    file = with_body(file, sizeof header / 8, body);
    sequence_answers(bitm::sequence_view::in(file), largest);
    const auto anew = bitm::sequence::try_of_bytes({reinterpret_cast<const unsigned char *>(file.data()), header.size});
    MUST(!anew || anew->check());
    std::vector<u64> numbers(n);
    for (u64 i = 0; i < n; i++) numbers[i] = largest / n * i;
    const bitm::sequence of_it(numbers);
    const std::vector<u64> block = with_body(block_of(of_it), head_of(of_it), body);
    sequence_answers(bitm::sequence_view::in(block), largest);
}

static void any_hash(FuzzedDataProvider &from)
{
    std::vector<u64> hashes(from.ConsumeIntegralInRange<std::size_t>(0, 500));
    u64 state = from.ConsumeIntegral<u64>();
    for (u64 &it : hashes) it = state = state * 6364136223846793005u + 1442695040888963407u;
    const bitm::perfect_hash h(hashes, from.ConsumeIntegralInRange(0u, 300u));
    std::vector<bool> used(hashes.size());
    for (const u64 it : hashes) MUST(h(it) && *h(it) < used.size() && !used[*h(it)]), used[*h(it)] = true;
    // anything after the header
    std::vector<unsigned char> file(h.bytes().begin(), h.bytes().end());
    while (from.remaining_bytes() > 0)
        file[from.ConsumeIntegralInRange<std::size_t>(0, file.size() - 1)] = from.ConsumeIntegral<unsigned char>();
    const auto wrong = bitm::perfect_hash::try_of_bytes(file);
    if (!wrong) return;
    for (const u64 it : hashes) {
        const auto number = wrong->try_number(it);
        if (number && *number) MUST(**number < wrong->size());
    }
}

// Answers of a tree that may be any: inside, or an error.
static void inside(const bitm::result<bitm::maybe_position> &found, u64 end)
{
    MUST(!found || !*found || **found < end);
}

static void any_tree(FuzzedDataProvider &from)
{
    std::vector<u64> degrees(from.ConsumeIntegralInRange<std::size_t>(1, 200));
    u64 left = degrees.size() - 1, open = 1;
    for (u64 &it : degrees) {
        it = from.ConsumeIntegralInRange<u64>(open == 1 && left > 0, std::min<u64>(left, 9));
        left -= it, open += it, open--;
    }
    degrees.back() += left; // of no tree where there are some left
    const auto t = bitm::tree::try_of(degrees);
    MUST(t.has_value() == (left == 0));
    if (!t) return;
    u64 known = 1;
    for (u64 node = 0; node < degrees.size(); node++) {
        MUST(t->degree(node) == degrees[node]);
        for (const u64 child : t->children(node)) MUST(child == known++ && t->parent(child) == node);
    }
    // anything after the header and the directory
    std::vector<u64> block(t->block().begin(), t->block().end());
    while (from.remaining_bytes() > 0)
        block[from.ConsumeIntegralInRange<std::size_t>(32, block.size() - 1)] = from.ConsumeIntegral<u64>();
    const bitm::tree_view wrong = bitm::tree_view::in(block);
    MUST(!wrong.check() || wrong == *t);
    for (u64 node = 0; node <= wrong.size(); node++) {
        inside(wrong.try_parent(node), node), inside(wrong.try_child(node, 1), wrong.size());
        inside(wrong.try_degree(node), wrong.size()), inside(wrong.try_child_rank(node), wrong.size());
        inside(wrong.try_next_sibling(node), wrong.size()), inside(wrong.try_previous_sibling(node), node);
    }
}

static void any_matrix(FuzzedDataProvider &from)
{
    const std::uint32_t width = from.ConsumeIntegralInRange(1u, 64u);
    std::vector<u64> numbers(from.ConsumeIntegralInRange<std::size_t>(0, 150));
    for (u64 &it : numbers) it = from.ConsumeIntegral<u64>() >> (64 - width);
    const bitm::wavelet_matrix m(numbers, width);
    MUST(m.check() && m.width() == width && std::equal(m.begin(), m.end(), numbers.begin(), numbers.end()));
    const u64 n = numbers.size(), a = from.ConsumeIntegralInRange<u64>(0, n), b = from.ConsumeIntegralInRange(a, n),
              asked = n ? numbers[a % n] : 0;
    const auto to = [&](u64 i) { return numbers.begin() + static_cast<std::ptrdiff_t>(i); };
    std::vector<u64> part(to(a), to(b));
    std::sort(part.begin(), part.end());
    const auto bound = std::lower_bound(part.begin(), part.end(), asked);
    MUST(m.count_less(a, b, asked) == static_cast<u64>(bound - part.begin()));
    MUST(m.next_value(a, b, asked) == (bound == part.end() ? bitm::maybe_position() : *bound));
    for (u64 k = 0; k < part.size(); k++) MUST(m.quantile(a, b, k) == part[k]);
    MUST(m.rank(asked, b) == static_cast<u64>(std::count(numbers.begin(), to(b), asked)));
    // anything after the header and the directory
    const std::size_t start = static_cast<std::size_t>(m.raw().words - m.block().data());
    std::vector<u64> block(m.block().begin(), m.block().end());
    while (from.remaining_bytes() > 0 && start < block.size())
        block[from.ConsumeIntegralInRange<std::size_t>(start, block.size() - 1)] = from.ConsumeIntegral<u64>();
    const auto wrong = bitm::wavelet_matrix_view::in(block);
    MUST(!wrong.check() || wrong == m);
    for (u64 i = 0; i < n; i++) {
        inside(wrong.try_select(numbers[i], i % 4), n);
        const auto rank = wrong.try_rank(numbers[i], i), less = wrong.try_count_less(0, i, numbers[i]);
        MUST((!rank || *rank <= i) && (!less || *less <= i));
    }
}

static void any_file(const unsigned char *data, std::size_t size)
{
    (void)bitm::rank_index::try_of_bytes({data, size}, bitm::verify::yes).has_value();
    (void)bitm::sequence::try_of_bytes({data, size}, bitm::verify::yes).has_value();
    (void)bitm::perfect_hash::try_of_bytes({data, size}, bitm::verify::yes).has_value();
    (void)bitm::seeded_hash::try_of_bytes({data, size}, bitm::verify::yes).has_value();
    (void)bitm::key_hash::try_of_bytes({data, size}, bitm::verify::yes).has_value();
    (void)bitm::tree::try_of_bytes({data, size}, bitm::verify::yes).has_value();
    (void)bitm::trie::try_of_bytes({data, size}, bitm::verify::yes).has_value();
    (void)bitm::wavelet_matrix::try_of_bytes({data, size}, bitm::verify::yes).has_value();
}

extern "C" int LLVMFuzzerTestOneInput(const unsigned char *data, std::size_t size)
{
    if (size == 0) return 0;
    FuzzedDataProvider from(data + 1, size - 1);
    switch (data[0] < 250 ? data[0] % 5 : 5 + data[0] % 2) {
    case 0: changes(from); break;
    case 1: any_index(from); break;
    case 2: any_sequence(from); break;
    case 3: any_hash(from); break;
    case 5: any_tree(from); break;
    case 6: any_matrix(from); break;
    default: any_file(data + 1, size - 1);
    }
    return 0;
}
