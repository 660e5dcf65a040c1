// Files: an owner is one block of memory, which is the file byte for byte (docs/FORMAT.md); so it is written at once
// and mapped where it lies. Part of the other headers.
//
//     #include <sstream>
//     const bitm::rank_index x(bitm::bits("0101"));
//     x.save("a.bitm");                                                // all of it, or the file that was there stays
//     const auto copied = bitm::rank_index::load("a.bitm", bitm::verify::yes); // only if it is what was written
//     std::stringstream stream;
//     x.save(stream);
//     const auto sent = bitm::rank_index::load(stream);                // or of_bytes(x.bytes())
//     std::cout << copied.rank(4) << ' ' << sent.select(1).value() << '\n'; // 2 3
//     const auto none = bitm::sequence::try_map("a.bitm");              // "the file holds an index, not a sequence"
//     std::cout << (none.error().code == bitm::errc::other_kind) << '\n'; // 1
#ifndef BITM_FILE_HPP
#define BITM_FILE_HPP

#include <bitm/block.hpp>

#include <cerrno>
#include <iosfwd>
#include <memory>

#include <fcntl.h>
#include <sys/mman.h>
#include <sys/stat.h>
#include <unistd.h>

BITM_NAMESPACE_BEGIN

// Whether all of what is loaded is looked at, or its header alone. With `yes` it is what was written: the checksum of
// each section is right, and the parts fit together. Files of version 2 have no such checksums: of them `yes` finds
// only what does not fit. Without, over a damaged file, answers are safe, but may be wrong.
enum class verify : bool { no, yes };

namespace detail {

// A path as the system takes it, of a std::string, a std::filesystem::path or a literal. A null pointer is the empty
// path, which names no file.
class path_of {
public:
    path_of(const char *path) noexcept : path_(path ? path : "") {}
    template <class Path, class = std::enable_if_t<
                              std::is_convertible_v<decltype(std::declval<const Path &>().c_str()), const char *>>>
    path_of(const Path &path BITM_LIFETIMEBOUND) noexcept : path_(path.c_str())
    {
    }
    const char *get() const noexcept { return path_; }

private:
    const char *path_;
};

inline failure no_file() noexcept { return {errc::no_file, static_cast<std::uint64_t>(errno), 0}; }

struct open_file {
    explicit open_file(int descriptor) noexcept : at(descriptor) {}
    ~open_file()
    {
        if (at >= 0) ::close(at);
    }
    open_file(const open_file &) = delete;
    open_file &operator=(const open_file &) = delete;
    int at;
};

inline void free_map(std::uint64_t *data, std::size_t words) noexcept { ::munmap(data, 8 * words); }

// A file that is read where it lies. If it is truncated meanwhile, the system ends the program (SIGBUS).
inline result<block> mapped(path_of path) noexcept
{
    const open_file file(::open(path.get(), O_RDONLY | O_CLOEXEC));
    struct stat about;
    if (file.at < 0 || ::fstat(file.at, &about) != 0) return no_file();
    const std::size_t words = static_cast<std::size_t>(about.st_size) / 8;
    if (about.st_size < static_cast<off_t>(sizeof(bitm_stored))) return failure{errc::wrong_file};
    void *at = ::mmap(nullptr, 8 * words, PROT_READ, MAP_SHARED, file.at, 0);
    if (at == MAP_FAILED) return no_file();
    return block(static_cast<std::uint64_t *>(at), words, free_map);
}

inline bool write_all(int to, const void *data, std::size_t bytes) noexcept
{
    for (std::size_t done = 0; done < bytes;) {
        const ssize_t got = ::write(to, static_cast<const char *>(data) + done, bytes - done);
        if (got < 0 && errno != EINTR) return false;
        if (got > 0) done += static_cast<std::size_t>(got);
    }
    return true;
}

// The name of the file to which a path leads over symbolic links, where there may be none yet; else null, and errno.
inline std::unique_ptr<char[]> target_of(const char *path) noexcept
{
    std::unique_ptr<char[]> name(new (std::nothrow) char[std::strlen(path) + 1]);
    if (name) std::memcpy(name.get(), path, std::strlen(path) + 1);
    for (int links = 0; name && links < 40; links++) {
        char to[4096];
        const ssize_t len = ::readlink(name.get(), to, sizeof to);
        if (len < 0 || len == static_cast<ssize_t>(sizeof to)) return name; // no link, or none that the system follows
        const char *const slash = to[0] == '/' ? nullptr : std::strrchr(name.get(), '/');
        const std::size_t folder = slash ? static_cast<std::size_t>(slash + 1 - name.get()) : 0;
        std::unique_ptr<char[]> next(new (std::nothrow) char[folder + static_cast<std::size_t>(len) + 1]);
        if (!next) return next;
        std::memcpy(next.get(), name.get(), folder);
        std::memcpy(next.get() + folder, to, static_cast<std::size_t>(len));
        next[folder + static_cast<std::size_t>(len)] = '\0';
        name.swap(next);
    }
    if (name) errno = ELOOP;
    return nullptr;
}

// A new file beside a path, opened exclusively, which becomes the file of that path or is removed.
class replacement {
public:
    explicit replacement(const char *path) noexcept
        : path_(path), name_(new (std::nothrow) char[std::strlen(path) + 48])
    {
        for (unsigned attempt = 0; name_ && attempt < 100; attempt++) {
            std::snprintf(name_.get(), std::strlen(path) + 48, "%s.%ld-%u.tmp", path, static_cast<long>(::getpid()),
                          attempt);
            to_ = ::open(name_.get(), O_WRONLY | O_CREAT | O_EXCL | O_CLOEXEC, 0666);
            if (to_ >= 0 || errno != EEXIST) return;
        }
    }
    ~replacement()
    {
        const int before = errno;
        if (to_ >= 0) ::close(to_), ::unlink(name_.get());
        errno = before;
    }
    replacement(const replacement &) = delete;
    replacement &operator=(const replacement &) = delete;
    int descriptor() const noexcept { return to_; }
    // Makes it the file of the path once its bytes are on the disk. `old` is what the path was, if it was there.
    bool commit(const struct stat *old) noexcept
    {
        if (old && ::fchmod(to_, old->st_mode & 07777) != 0) return false;
        if (::fsync(to_) != 0 || ::rename(name_.get(), path_) != 0) return false;
        ::close(to_), to_ = -1;
        char *const slash = std::strrchr(name_.get(), '/'); // the name is on the disk with its folder
        if (slash) slash[slash == name_.get()] = '\0';
        const open_file folder(::open(slash ? name_.get() : ".", O_RDONLY | O_DIRECTORY | O_CLOEXEC));
        if (folder.at >= 0) (void)!::fsync(folder.at);
        return true;
    }

private:
    const char *path_;
    std::unique_ptr<char[]> name_;
    int to_ = -1;
};

// Writes a whole file, or leaves what was there: beside it, and renamed once it is on the disk. Of a symbolic link it
// is the file to which that leads, and the link stays. What is there and no regular file (a device, a pipe) is written
// as it is.
inline result<bool> written(path_of path, const void *data, std::size_t bytes) noexcept
{
    struct stat old;
    const bool is_there = ::stat(path.get(), &old) == 0;
    if (is_there && !S_ISREG(old.st_mode)) {
        const open_file file(::open(path.get(), O_WRONLY | O_CLOEXEC));
        if (file.at < 0 || !write_all(file.at, data, bytes)) return no_file();
        return true;
    }
    const std::unique_ptr<char[]> target = target_of(path.get());
    if (!target) return no_file();
    replacement made(target.get());
    if (made.descriptor() < 0 || !write_all(made.descriptor(), data, bytes) || !made.commit(is_there ? &old : nullptr))
        return no_file();
    return true;
}

// The words of a stream from where it stands: `needed` says by the words that were read how many there should be.
// Their header is not checked before all is read, so memory grows with the bytes that arrive.
template <class Char, class Traits, class Needed>
result<block> streamed(std::basic_istream<Char, Traits> &from, Needed &&needed)
{
    static_assert(sizeof(Char) == 1, "a stream of bytes");
    block all;
    for (std::size_t have = 0, want = sizeof(bitm_stored) / 8; have < want;) {
        const std::size_t more = lesser(want - have, greater(have, 1 << 17));
        block longer(have + more);
        if (have) std::memcpy(longer.data(), all.data(), 8 * have);
        if (!from.read(reinterpret_cast<Char *>(longer.data() + have), static_cast<std::ptrdiff_t>(8 * more)))
            return failure{errc::wrong_file};
        all.swap(longer), have += more;
        if (have == want) want = needed(static_cast<const std::uint64_t *>(all.data()), have);
    }
    return all;
}

inline result<block> copied(const void *bytes, std::size_t size)
{
    if (size < sizeof(bitm_stored)) return failure{errc::wrong_file};
    block all(size / 8);
    std::memcpy(all.data(), bytes, 8 * all.size());
    return all;
}

// The value: fails where there is none, with the name of the file where it is one that the system or the format
// refuses.
template <class T> T of_file(result<T> made, const path_of &path)
{
    if (BITM_RARELY(!made.has_value())) {
        failure why = made.error();
        if (why.code == errc::no_file || why.code == errc::wrong_file || why.code == errc::other_kind)
            why.which = path.get();
        fail(why);
    }
    return std::move(made).value();
}

// Saving and loading of owners that are one block. `Self` has `check()`.
template <class Self, class Kind> class stored_calls {
public:
    // The block, which is the file. An empty owner has one too, but not a tree or a trie without nodes. For a mapped
    // file of version 2 it is that file.
    span<const unsigned char> bytes() const &noexcept BITM_LIFETIMEBOUND { return bytes_of(own_.words()); }
    void bytes() const && = delete;

    // Writes the block to a new file, which replaces one of that name once it is whole; or to a stream. Of a file of
    // version 2 that was mapped it makes the block first, in memory. Fails where there is no block, of no nodes.
    result<bool> try_save(path_of path) const
    {
        return by_block([&](words_in all) { return written(path, all.data(), 8 * all.size()); });
    }
    void save(path_of path) const { (void)of_file(try_save(path), path); }
    template <class Char, class Traits>
    std::basic_ostream<Char, Traits> &save(std::basic_ostream<Char, Traits> &to) const
    {
        const auto write = [&](words_in all) -> result<bool> {
            to.write(reinterpret_cast<const Char *>(all.data()), static_cast<std::ptrdiff_t>(8 * all.size()));
            return true;
        };
        return (void)by_block(write).value(), to;
    }

    // From a path, copied (load) or read where it lies (map); from a stream; from bytes, which are copied. A file of
    // version 2 becomes a block where it is copied.
    static result<Self> try_load(path_of path, verify how = verify::no)
    {
        result<block> all = mapped(path);
        if (!all) return all.error();
        const result<in_block<Kind>> found = Kind::in(all->data(), all->size()); // before memory for a copy is taken
        if (!found) return found.error();
        return renewed(copied(all->data(), 8 * found->words().size()), how);
    }
    static result<Self> try_map(path_of path, verify how = verify::no)
    {
        result<block> all = mapped(path);
        if (!all) return all.error();
        return opened(std::move(*all), how);
    }
    static result<Self> try_of_bytes(span<const unsigned char> bytes, verify how = verify::no)
    {
        return renewed(copied(bytes.data(), bytes.size()), how);
    }
    template <class Char, class Traits>
    static result<Self> try_load(std::basic_istream<Char, Traits> &from, verify how = verify::no)
    {
        return renewed(streamed(from, Kind::needed), how);
    }
    static Self load(path_of path, verify how = verify::no) { return of_file(try_load(path, how), path); }
    static Self map(path_of path, verify how = verify::no) { return of_file(try_map(path, how), path); }
    static Self of_bytes(span<const unsigned char> bytes, verify how = verify::no)
    {
        return try_of_bytes(bytes, how).value();
    }
    template <class Char, class Traits>
    static Self load(std::basic_istream<Char, Traits> &from, verify how = verify::no)
    {
        return try_load(from, how).value();
    }

    // An exchange. (A copy has a block of its own; a moved-from value is empty.)
    void swap(Self &other) noexcept { own_.swap(other.own_); }
    friend void swap(Self &a, Self &b) noexcept { a.swap(b); }

protected:
    stored_calls() noexcept = default;
    ~stored_calls() = default;
    stored_calls(const stored_calls &) = default;
    stored_calls(stored_calls &&) noexcept = default;
    stored_calls &operator=(const stored_calls &) = default;
    stored_calls &operator=(stored_calls &&) noexcept = default;

    static result<Self> opened(block &&all, verify how) noexcept
    {
        const result<in_block<Kind>> found = Kind::in(all.data(), all.size());
        if (!found) return found.error();
        Self made;
        made.own_ = owned<Kind>(std::move(all), *found);
        if (how == verify::yes && !made.check()) return failure{errc::wrong};
        return made;
    }

    owned<Kind> own_;

private:
    static span<const unsigned char> bytes_of(words_in words) noexcept
    {
        return {reinterpret_cast<const unsigned char *>(words.data()), 8 * words.size()};
    }
    // The owner of memory of its own, in which an older file becomes a block.
    static result<Self> renewed(result<block> &&all, verify how)
    {
        if (!all) return all.error();
        result<Self> made = opened(std::move(*all), how);
        if (!made || is_block(made->own_.words())) return made;
        result<block> anew = Kind::renewed(made->own_.found());
        if (!anew) return anew.error();
        return opened(std::move(*anew), verify::no);
    }
    // What `call` makes of the words of the block.
    template <class Call> result<bool> by_block(Call &&call) const
    {
        const words_in own = own_.words();
        if (own.empty()) return bad_size("there is no block of no nodes");
        if (is_block(own)) return call(own);
        const result<block> anew = Kind::renewed(own_.found());
        if (!anew) return anew.error();
        return call(words_in(anew->data(), anew->size()));
    }
};

} // namespace detail

BITM_NAMESPACE_END

#endif
