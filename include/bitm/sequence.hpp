// Monotone sequences (Elias-Fano): an owner, and a view of parts in memory of the caller's.
//
//     const bitm::sequence primes{2, 3, 5, 7, 11};     // or of a vector, a span, iterators
//     std::cout << primes[2] << ' ' << primes.first_at_least(6).value() << ' ' << primes.contains(7) << '\n'; // 5 3 1
//     std::cout << *primes.lower_bound(6) << ' ' << primes.rank(7) << ' ' << *primes.rbegin() << '\n';        // 7 3 11
//     auto walk = primes.walk();                       // the fast way through all: in blocks
//     walk.advance_to(4);                              // to the first number that is not less
//     for (const std::uint64_t it : walk) std::cout << it << ' '; // 5 7 11
#ifndef BITM_SEQUENCE_HPP
#define BITM_SEQUENCE_HPP

#include <bitm/sequence_view.hpp>

BITM_NAMESPACE_BEGIN

// A sequence that owns its parts, made from numbers that never fall: one block of memory, which is the file.
class BITM_OWNER sequence : public detail::sequence_calls<sequence>,
                            public detail::stored_calls<sequence, detail::sequence_kind> {
public:
    // The types of a container.
    using value_type = std::uint64_t;
    using const_iterator = sequence_iterator;
    using iterator = sequence_iterator;

    // No numbers; or the numbers of words, a list or iterators: fails where one is less than the one before it.
    sequence() noexcept = default;
    explicit sequence(words_in numbers) : sequence(try_of(numbers).value()) {}
    sequence(std::initializer_list<std::uint64_t> numbers) : sequence(words_in(numbers.begin(), numbers.size())) {}
    template <class It, class = typename std::iterator_traits<It>::iterator_category> sequence(It first, It last)
        : sequence(detail::gathered::of(first, last))
    {
        static_assert(std::is_unsigned_v<typename std::iterator_traits<It>::value_type>, "numbers without a sign");
    }
    static result<sequence> try_of(words_in numbers)
    {
        result<detail::block> all = detail::sequence_block(numbers);
        if (!all) return all.error();
        return opened(std::move(*all), verify::no);
    }

    // Views and walks, which the owner has to outlive; the block, and the parts as C takes them. Deleted for
    // temporaries.
    sequence_view view() const &noexcept BITM_LIFETIMEBOUND { return sequence_view(own_.found()); }
    words_in block() const &noexcept BITM_LIFETIMEBOUND { return own_.words(); }
    const bitm_sequence &raw() const &noexcept BITM_LIFETIMEBOUND { return own_.raw(); }
    sequence_iterator begin() const &noexcept BITM_LIFETIMEBOUND { return {raw(), 0}; }
    sequence_iterator end() const &noexcept BITM_LIFETIMEBOUND { return {raw(), raw().len}; }
    std::reverse_iterator<sequence_iterator> rbegin() const &BITM_LIFETIMEBOUND
    {
        return std::reverse_iterator<sequence_iterator>(end());
    }
    std::reverse_iterator<sequence_iterator> rend() const &BITM_LIFETIMEBOUND
    {
        return std::reverse_iterator<sequence_iterator>(begin());
    }
    sequence_iterator lower_bound(std::uint64_t value) const &BITM_LIFETIMEBOUND { return {raw(), rank(value)}; }
    sequence_walk walk(std::uint64_t from = 0) const &BITM_LIFETIMEBOUND { return {raw(), from}; }
    void lower_bound(std::uint64_t) const && = delete;
    void view() const && = delete;
    void block() const && = delete;
    void raw() const && = delete;
    void begin() const && = delete;
    void end() const && = delete;
    void rbegin() const && = delete;
    void rend() const && = delete;
    void walk(std::uint64_t = 0) const && = delete;

private:
    friend class detail::sequence_calls<sequence>;
    explicit sequence(const detail::gathered &numbers) : sequence(words_in(numbers.data(), numbers.size())) {}
};

// Calls `each` with each number that is in both, once however often it is there. The shorter one should be first.
template <class A, class B, class Each>
void intersect(const detail::sequence_calls<A> &a, const detail::sequence_calls<B> &b, Each &&each)
{
    sequence_walk y(b.raw(), 0);
    for (sequence_walk x(a.raw(), 0); x && y.advance_to(*x);) {
        const std::uint64_t at = *y;
        if (at == *x) {
            each(at);
            while (x && *x == at) ++x;
        } else if (!x.advance_to(at)) {
            break;
        }
    }
}

BITM_NAMESPACE_END

// Equal sequences have equal hashes.
template <> struct std::hash<bitm::sequence> {
    std::size_t operator()(const bitm::sequence &of) const
    {
        std::size_t sum = of.size();
        for (auto it = of.walk(); it; ++it) sum = sum * 31 + std::hash<std::uint64_t>()(*it);
        return sum;
    }
};

#endif
