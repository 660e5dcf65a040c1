// The words of bits that grow: what an owner of bits keeps. Part of bitm/bits.hpp.
//
//     bitm::bits b(100);
//     b.reserve(1000);                                                 // the words move now, and not below 1000 bits
//     std::cout << b.size() << ' ' << b.words_len() << ' ' << b.capacity() << '\n'; // 100 2 1024
#ifndef BITM_BITS_MEMORY_HPP
#define BITM_BITS_MEMORY_HPP

#include <bitm/bits_view.hpp>

BITM_NAMESPACE_BEGIN

namespace detail {

// Words, how many of them the bits need, and how many bits there are. All words past these are zeros at all times.
class bits_memory {
public:
    bits_memory() noexcept = default;
    bits_memory(const bits_memory &other) : block_(other.len_), len_(other.len_), size_(other.size_)
    {
        if (len_) std::memcpy(block_.data(), other.block_.data(), 8 * len_);
    }
    bits_memory(bits_memory &&other) noexcept { swap(other); }
    bits_memory &operator=(const bits_memory &other) { return *this = bits_memory(other); }
    bits_memory &operator=(bits_memory &&other) noexcept
    {
        bits_memory moved(std::move(other));
        swap(moved);
        return *this;
    }
    ~bits_memory() = default;
    void swap(bits_memory &other) noexcept
    {
        block_.swap(other.block_), std::swap(len_, other.len_), std::swap(size_, other.size_);
    }
    std::uint64_t *data() const noexcept { return block_.data(); }
    std::size_t len() const noexcept { return len_; }
    std::uint64_t size() const noexcept { return size_; }
    bits_parts parts() const noexcept { return {block_.data(), len_, size_}; }
    // How many words there is room for; room for a number of words, which are at least len().
    std::size_t room() const noexcept { return block_.size(); }
    void hold(std::size_t words)
    {
        block more(words);
        if (len_) std::memcpy(more.data(), block_.data(), 8 * len_);
        block_.swap(more);
    }
    // Makes the size this one, which is not less, and new bits 0 bits; makes it this one, which is not greater.
    void grow(std::uint64_t size)
    {
        if (BITM_RARELY(size < size_)) fail(bad_size("2^64 bits or more"));
        const std::size_t words = bitm_bits_words_len(size);
        if (words > block_.size()) hold(greater(words, greater(8, block_.size() + block_.size() / 2)));
        len_ = words, size_ = size;
    }
    void cut(std::uint64_t size)
    {
        need(bitm_bits_clear_from(block_.data(), len_, size));
        size_ = size, len_ = bitm_bits_words_len(size);
    }

private:
    block block_;
    std::size_t len_ = 0;
    std::uint64_t size_ = 0;
};

} // namespace detail

BITM_NAMESPACE_END

#endif
