// Structures in blocks of memory, of an owner or in memory of the caller's: how one is found in a block, copied and
// compared. Part of the other headers.
//
//     const bitm::tree t{2, 0, 1, 0};
//     const bitm::tree copy = t;                                       // has a block of its own
//     const std::vector<std::uint64_t> file(t.block().begin(), t.block().end());
//     const bitm::tree_view v = bitm::tree_view::in(file);             // reads the block where it lies
//     std::cout << (copy == t) << ' ' << (v == t) << '\n';              // 1 1
#ifndef BITM_BLOCK_HPP
#define BITM_BLOCK_HPP

#include <bitm/memory.hpp>

#include <array>
#include <iosfwd>

BITM_NAMESPACE_BEGIN

namespace detail {

// How many words a structure in a block has, by the first words of its header: 0 where these begin no block.
constexpr std::size_t block_head = 3;
constexpr std::uint64_t block_mark = 0x046261746D746962;     // "bitmtab" and the version
constexpr std::uint64_t old_block_mark = 0x036261746D746962; // version 3, which is read but not written
inline bool is_block(words_in file) noexcept
{
    return file.size() >= block_head && (file.data()[0] == block_mark || file.data()[0] == old_block_mark);
}
inline std::size_t block_len(const std::uint64_t *file, std::size_t words) noexcept
{
    return is_block({file, words}) ? static_cast<std::size_t>(file[2] / 8) : 0;
}

// A structure in a block: as C takes it, and the words that are its own. `Kind` finds it by `in(words, len)`, and has
// what an owner or a view that was default constructed queries.
template <class Kind> class in_block {
public:
    using raw_type = typename Kind::raw_type;
    in_block() noexcept : in_block(Kind::nothing()) {}
    in_block(const raw_type &raw, words_in words) noexcept : raw_(raw), words_(words) {}
    const in_block &found() const noexcept BITM_LIFETIMEBOUND { return *this; }
    const raw_type &raw() const noexcept BITM_LIFETIMEBOUND { return raw_; }
    words_in words() const noexcept { return words_; }

private:
    raw_type raw_;
    words_in words_;
};

// A block with the structure in it. A copy copies the block; a moved-from value has the empty block, which all share.
template <class Kind> class owned {
public:
    owned() noexcept = default;
    owned(block &&all, const in_block<Kind> &found) noexcept : all_(std::move(all)), found_(found) {}
    owned(const owned &other) : all_(other.all_.size() ? other.words().size() : 0)
    {
        if (all_.size() == 0) return;
        std::memcpy(all_.data(), other.words().data(), 8 * all_.size());
        found_ = Kind::in(all_.data(), all_.size()).value();
    }
    owned(owned &&other) noexcept { swap(other); }
    owned &operator=(const owned &other) { return *this = owned(other); }
    owned &operator=(owned &&other) noexcept
    {
        owned moved(std::move(other));
        swap(moved);
        return *this;
    }
    ~owned() = default;
    void swap(owned &other) noexcept { all_.swap(other.all_), std::swap(found_, other.found_); }
    const in_block<Kind> &found() const noexcept BITM_LIFETIMEBOUND { return found_; }
    const typename Kind::raw_type &raw() const noexcept BITM_LIFETIMEBOUND { return found_.raw(); }
    words_in words() const noexcept BITM_LIFETIMEBOUND { return found_.words(); }

private:
    block all_;
    in_block<Kind> found_;
};

// The section of the fingerprints in the block of a hash of keys: its role, "bitmhas2", says how these are hashed.
constexpr std::uint64_t keys_role = 0x327361686D746962;
inline bool keys_in(const std::uint64_t *file, std::size_t words, bool has_seeds, bitm_section *prints) noexcept
{
    return bitm_block_section(file, words, has_seeds ? 5 : 4, prints) == BITM_OK && prints->role == keys_role;
}

// Which of the structures a block holds that begin with the levels of a hash.
inline kind hash_in(const std::uint64_t *file, std::size_t words) noexcept
{
    bitm_seeded_hash seeded{};
    bitm_dictionary dictionary{};
    bitm_section prints{};
    std::uint64_t seed = 0;
    const bool has_seeds = bitm_hash_block_open_seeded(file, words, &seeded, &seed) == BITM_OK;
    if (keys_in(file, words, has_seeds, &prints)) return kind::key_hash;
    if (has_seeds) return kind::seeded_hash;
    return bitm_dictionary_open(file, words, &dictionary) == BITM_OK ? kind::dictionary : kind::perfect_hash;
}

// What a block holds, by the number in its header (docs/FORMAT.md); unknown where header or directory are damaged.
inline kind kind_in(const std::uint64_t *file, std::size_t words) noexcept
{
    bitm_section first{};
    if (bitm_block_section(file, words, 0, &first) != BITM_OK) return kind::unknown;
    switch (file[1]) {
    case 2:
        return kind::index;
    case 3:
        return kind::sequence;
    case 4:
        return kind::sparse_bits;
    case 5:
        return hash_in(file, words);
    case 6:
        return kind::wavelet_matrix;
    case 7:
        return kind::tree;
    case 8:
        return kind::text_index;
    case 9:
        return kind::trie;
    case 10:
    case 12:
        return kind::strings;
    default:
        return kind::unknown;
    }
}

// What a file of version 2 holds: unknown where its header is damaged, or the words are no such file.
inline kind kind_of_version2(const std::uint64_t *file, std::size_t words, bitm_stored &header) noexcept
{
    if (words < sizeof header / 8 || bitm_stored_read(file, words, &header) != BITM_OK) return kind::unknown;
    return header.kind == BITM_STORED_INDEX ? kind::index : kind::sequence;
}

// Why a file with the kind `found` is refused where `wanted` is expected: it is damaged where the two are equal.
inline failure not_of(kind wanted, kind found) noexcept
{
    if (found == wanted || found == kind::unknown) return {errc::wrong_file};
    return {errc::other_kind, static_cast<std::uint64_t>(found), static_cast<std::uint64_t>(wanted)};
}

// What the kinds have in common whose blocks begin with the mark of blocks: `Open` is the call of C that opens one.
template <class Kind, class Raw, std::uint32_t (*Open)(const std::uint64_t *, std::size_t, Raw *)> struct block_kind {
    using raw_type = Raw;
    static std::size_t needed(const std::uint64_t *file, std::size_t have) noexcept { return block_len(file, have); }
    static result<in_block<Kind>> in(const std::uint64_t *file, std::size_t words) noexcept
    {
        Raw raw{};
        bitm_stored header;
        const std::size_t len = block_len(file, words);
        if (len == 0 || len > words) return not_of(Kind::number, kind_of_version2(file, words, header));
        if (Open(file, len, &raw) != BITM_OK) return not_of(Kind::number, kind_in(file, len));
        return in_block<Kind>(raw, {file, len});
    }
    // The block of nothing: of as many words as the kind says, which its `build_nothing` writes.
    static const in_block<Kind> &nothing() noexcept
    {
        alignas(64) static std::uint64_t words[Kind::nothing_len];
        static const in_block<Kind> found = [] {
            Raw raw{};
            const bool built = Kind::build_nothing(words) == BITM_OK;
            if (!built || Open(words, Kind::nothing_len, &raw) != BITM_OK) raw = Raw{};
            return in_block<Kind>(raw, {words, Kind::nothing_len});
        }();
        return found;
    }
    // The block that an older file becomes: this kind has none.
    static result<block> renewed(const in_block<Kind> &) { return failure{errc::wrong_file}; }
};

// ---- files of version 2, which were written before there were blocks: a header of 192 bytes, and parts

// The number of words of such a file, or of a block, that its header gives.
inline std::size_t needed_of(const std::uint64_t *file, std::size_t have) noexcept
{
    if (is_block({file, have})) return block_len(file, have);
    bitm_stored header;
    std::memcpy(&header, file, sizeof header);
    return static_cast<std::size_t>(header.size / 8);
}

// The header of such a file of a kind.
inline result<bitm_stored> header_of(const std::uint64_t *file, std::size_t words, kind wanted) noexcept
{
    bitm_stored header;
    const kind found = kind_of_version2(file, words, header);
    if (found != wanted) return not_of(wanted, found);
    return header;
}

// The kinds that had such files: `Kind::of` finds the parts.
template <class Kind, class Raw, std::uint32_t (*Open)(const std::uint64_t *, std::size_t, Raw *)> struct stored_kind
    : block_kind<Kind, Raw, Open> {
    static std::size_t needed(const std::uint64_t *file, std::size_t have) noexcept { return needed_of(file, have); }
    static result<in_block<Kind>> in(const std::uint64_t *file, std::size_t words) noexcept
    {
        if (is_block({file, words})) return block_kind<Kind, Raw, Open>::in(file, words);
        const result<bitm_stored> header = header_of(file, words, Kind::number);
        if (!header) return header.error();
        return in_block<Kind>(Kind::of(file, *header), {file, static_cast<std::size_t>(header->size / 8)});
    }
};

// A number of a value, by the name under which `<<` shows it.
struct field {
    const char *name;
    std::uint64_t value;
};

// Writes what a value is: `trie(nodes=3, width=8)`.
template <class Char, class Traits, class Fields>
std::basic_ostream<Char, Traits> &shown(std::basic_ostream<Char, Traits> &to, const char *name, const Fields &fields)
{
    const char *before = "(";
    to << name;
    for (const field &it : fields) to << before << it.name << '=' << it.value, before = ", ";
    return to << ')';
}

// Whether the call of C that looks at all of a block passes it; and whether two are the same.
inline bool checked(std::uint32_t (*check)(const std::uint64_t *, std::size_t), words_in all) noexcept
{
    return all.empty() || check(all.data(), all.size()) == BITM_OK;
}
inline bool same_words(words_in a, words_in b) noexcept
{
    return a.size() == b.size() && (a.empty() || std::memcmp(a.data(), b.data(), 8 * a.size()) == 0);
}

// The base of the calls that the owner of a block and a view of one share.
template <class Self, class Kind> class block_calls {
public:
    // The same structure: the same block, of the same version of the format.
    template <class Other> friend bool operator==(const block_calls &a, const block_calls<Other, Kind> &b) noexcept
    {
        return same_words(a.self().block(), static_cast<const Other &>(b).block());
    }
    template <class Other> friend bool operator!=(const block_calls &a, const block_calls<Other, Kind> &b) noexcept
    {
        return !(a == b);
    }
    // As text: the name of the owner, and how many items it has.
    template <class Char, class Traits>
    friend std::basic_ostream<Char, Traits> &operator<<(std::basic_ostream<Char, Traits> &to, const block_calls &of)
    {
        return shown(to, Kind::name, Kind::fields(of.self().raw()));
    }

protected:
    block_calls() noexcept = default;
    ~block_calls() = default;
    block_calls(const block_calls &) noexcept = default;
    block_calls &operator=(const block_calls &) noexcept = default;

    const Self &self() const noexcept { return static_cast<const Self &>(*this); }
};

} // namespace detail

BITM_NAMESPACE_END

#endif
