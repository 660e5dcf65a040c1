// std::format of bits, indexes and sequences, where the library has it: `{}` and width, fill and alignment of text.
//
//     const bitm::bits b("0011");
//     #if defined __cpp_lib_format
//     std::string text = std::format("{:0>6}", b);
//     #else
//     std::string text = "000011";                                     // a standard library without std::format
//     #endif
//     std::cout << text << '\n';                                       // 000011
#ifndef BITM_FORMAT_HPP
#define BITM_FORMAT_HPP

#include <bitm/index.hpp>
#include <bitm/sequence.hpp>

#if defined __cpp_lib_format
#include <format>
#include <string>

namespace bitm::detail {

struct text_format : std::formatter<std::string_view, char> {
    template <class Context> auto put(const bits_view &of, Context &context) const
    {
        std::string text;
        for (const bool bit : of) text.push_back(bit ? '1' : '0');
        return std::formatter<std::string_view, char>::format(text, context);
    }
    template <class Context> auto put(const bitm_sequence &of, Context &context) const
    {
        std::string text = "[";
        for (sequence_walk it(of, 0); it; ++it) text += (it.position() ? ", " : "") + std::to_string(*it);
        return std::formatter<std::string_view, char>::format(text + "]", context);
    }
};

} // namespace bitm::detail

template <> struct std::formatter<bitm::bits_view, char> : bitm::detail::text_format {
    template <class Context> auto format(const bitm::bits_view &of, Context &to) const { return put(of, to); }
};
template <> struct std::formatter<bitm::bits, char> : bitm::detail::text_format {
    template <class Context> auto format(const bitm::bits &of, Context &to) const { return put(of.view(), to); }
};
template <> struct std::formatter<bitm::rank_index_view, char> : bitm::detail::text_format {
    template <class Context> auto format(const bitm::rank_index_view &of, Context &to) const
    {
        return put(of.as_bits(), to);
    }
};
template <> struct std::formatter<bitm::rank_index, char> : bitm::detail::text_format {
    template <class Context> auto format(const bitm::rank_index &of, Context &to) const
    {
        return put(of.as_bits(), to);
    }
};
template <> struct std::formatter<bitm::sequence_view, char> : bitm::detail::text_format {
    template <class Context> auto format(const bitm::sequence_view &of, Context &to) const { return put(of.raw(), to); }
};
template <> struct std::formatter<bitm::sequence, char> : bitm::detail::text_format {
    template <class Context> auto format(const bitm::sequence &of, Context &to) const { return put(of.raw(), to); }
};
#endif

#endif
