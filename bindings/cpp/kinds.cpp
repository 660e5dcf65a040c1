// A file of each kind opened by each owner and view: a right file of another kind is named as what it is, and damage is
// not.
#include "blocks.hpp"

// An owner, and what an error calls it.
template <class Owner> struct held {
    Owner value;
    const char *name;
};

template <class Owner> static Words words_of(const Owner &value)
{
    return Words(value.block().begin(), value.block().end());
}

template <class Call> static std::string text_of(Call call)
{
    try {
        call();
    } catch (const bitm::other_kind &error) {
        return error.what();
    } catch (const std::exception &error) {
        return std::string("not other_kind: ") + error.what();
    }
    return "no error";
}

// How Other refuses the file of another owner: by path, copied and mapped, from a stream, as bytes.
template <class Other, class Owner> static void refused(const held<Other> &wanted, const held<Owner> &given)
{
    const std::string path = "a_file",
                      says = std::string("bitm: the file holds ") + given.name + ", not " + wanted.name;
    given.value.save(path);
    std::stringstream stream;
    given.value.save(stream);
    MUST(text_of([&] { (void)Other::load(path); }) == says + ": a_file");
    MUST(text_of([&] { (void)Other::map(path, bitm::verify::yes); }) == says + ": a_file");
    MUST(text_of([&] { (void)Other::load(stream); }) == says);
    MUST(text_of([&] { (void)Other::of_bytes(given.value.bytes()); }) == says);
    const bitm::failure why = Other::try_load(path).error();
    MUST(why.code == bitm::errc::other_kind && bitm::name_of(bitm::kind(why.at)) == std::string(given.name));
    MUST(bitm::name_of(bitm::kind(why.of)) == std::string(wanted.name) && bitm::message(why) == says);
    MUST(throws<bitm::wrong_file>([&] { (void)Other::load(path); })); // as callers of before catch it
    std::remove(path.c_str());
}

// The blocks of a kind by each other kind. The block of a dictionary, and of a hash of keys, is that of a hash too.
template <class Other, class... Owners> static void by(const held<Other> &wanted, const held<Owners> &...all)
{
    const auto each = [&](const auto &given) {
        using Owner = std::decay_t<decltype(given.value)>;
        constexpr bool is_same = std::is_same_v<Other, Owner>;
        constexpr bool is_hash = std::is_same_v<Other, bitm::perfect_hash> &&
                                 (std::is_same_v<Owner, bitm::dictionary> || std::is_same_v<Owner, bitm::key_hash>);
        if constexpr (!is_same && !is_hash) refused(wanted, given);
    };
    (each(all), ...);
}

// Files of version 2, which an index, a sequence and a hash had.
template <class Owner> static void version_2(const std::string &folder, const held<Owner> &wanted)
{
    for (const std::string name : {"index", "sequence"}) {
        const std::string text = text_of([&] { (void)Owner::load(folder + "/" + name); }), what = wanted.name;
        const std::string held = name == "index" ? "an index" : "a sequence";
        if (held == what)
            MUST(text == "no error");
        else
            MUST(text == "bitm: the file holds " + held + ", not " + what + ": " + folder + "/" + name);
    }
    if constexpr (std::is_same_v<Owner, bitm::perfect_hash>) {
        MUST(Owner::load(folder + "/hash", bitm::verify::yes).size() > 0);
    }
}

// A bit of header or directory that was changed is damage, for each owner.
template <class Owner> static void damaged(const Words &good)
{
    for (std::size_t at = 0; at < 8 * (16 + 4); at++) {
        Words block = good;
        reinterpret_cast<unsigned char *>(block.data())[at] ^= 1;
        const bitm::span<const unsigned char> bytes(reinterpret_cast<const unsigned char *>(block.data()),
                                                    8 * block.size());
        MUST(Owner::try_of_bytes(bytes).error().code == bitm::errc::wrong_file);
    }
}

template <class... Owners> static void all_of(const std::string &folder, const held<Owners> &...all)
{
    (by(all, all...), ...);
    (version_2(folder, all), ...);
    const auto each = [](const auto &given) { (damaged<Owners>(words_of(given.value)), ...); };
    (each(all), ...);
}

int main(int argc, char **argv)
{
    MUST(argc == 2);
    const Words hashes{5, 7, 9};
    all_of(
        argv[1], held<bitm::rank_index>{bitm::rank_index(bitm::bits("0101")), "an index"},
        held<bitm::sequence>{{2, 3, 5}, "a sequence"}, held<bitm::sparse_bits>{{{1, 5}, 100}, "sparse bits"},
        held<bitm::perfect_hash>{bitm::perfect_hash(hashes), "a perfect hash"},
        held<bitm::seeded_hash>{bitm::seeded_hash(hashes), "a perfect hash with seeds"},
        held<bitm::dictionary>{{4, 9, 49}, "a dictionary"}, held<bitm::wavelet_matrix>{{3, 1, 4}, "a wavelet matrix"},
        held<bitm::tree>{{1, 0}, "a tree"}, held<bitm::trie>{bitm::trie::of_words({"a", "be"}), "a trie"},
        held<bitm::text_index>{bitm::text_index("banana"), "the index of a text"},
        held<bitm::strings>{{"ada", "bob"}, "strings"}, held<bitm::key_hash>{{"ada", "bob"}, "a perfect hash of keys"});
    std::puts("kinds: ok");
    return 0;
}
