// WIT packages, worlds and core modules, in binary form and as text, for C++17 and later. Link with `pkg-config --libs witc`.
//
//     try {
//         std::cout << witc::package_text(bytes).view();
//     } catch (const witc::refusal &r) {
//         std::cerr << r.what() << '\n';
//     }
//
// A call reads bytes as a string_view, which must stay unchanged during the call. It returns bytes that are freed with the value that owns them. It throws a
// witc::refusal, or std::bad_alloc when out of memory. Threads may call at the same time. What each call does, witc.h says. Bound the text of bytes from
// strangers by the calls with `within` in their name, since a text may be millions of times as long as the package.
#ifndef WITC_HPP
#define WITC_HPP

#include <cstdint>
#include <new>
#include <optional>
#include <stdexcept>
#include <string>
#include <string_view>
#include <utility>
#include <vector>

#include "witc.h"

namespace witc {

/// Which refusal it is. A newer library may have others.
enum class code : std::uint32_t {
    too_large = WITC_TOO_LARGE,
    canonical_clash = WITC_CANONICAL_CLASH,
    no_reading = WITC_NO_READING,
    encoding_missing = WITC_ENCODING_MISSING,
    encoding_unknown_format = WITC_ENCODING_UNKNOWN_FORMAT,
    encoding_version = WITC_ENCODING_VERSION,
    bad_string_encoding = WITC_BAD_STRING_ENCODING,
    historical = WITC_HISTORICAL,
    not_a_module = WITC_NOT_A_MODULE,
    bad_module = WITC_BAD_MODULE,
    clash = WITC_CLASH,
    other_package = WITC_OTHER_PACKAGE,
    twice_without_version = WITC_TWICE_WITHOUT_VERSION,
    missing = WITC_MISSING,
    differs = WITC_DIFFERS,
    no_such_world = WITC_NO_SUCH_WORLD,
    not_utf8 = WITC_NOT_UTF8,
    bad_encoding = WITC_BAD_ENCODING,
    no_such_section = WITC_NO_SUCH_SECTION,
    text_too_long = WITC_TEXT_TOO_LONG,
    null_with_length = WITC_NULL_WITH_LENGTH,
    bad_text = WITC_BAD_TEXT,
    two_packages = WITC_TWO_PACKAGES,
    bad_count = WITC_BAD_COUNT,
};

/// Why bytes mean no package, or no single world. Take it as advice.
enum class cause : std::uint32_t {
    truncated = WITC_CAUSE_TRUNCATED,
    bad_number = WITC_CAUSE_BAD_NUMBER,
    bad_utf8 = WITC_CAUSE_BAD_UTF8,
    bad_preamble = WITC_CAUSE_BAD_PREAMBLE,
    unknown_section = WITC_CAUSE_UNKNOWN_SECTION,
    unknown_form = WITC_CAUSE_UNKNOWN_FORM,
    out_of_scope = WITC_CAUSE_OUT_OF_SCOPE,
    bad_name = WITC_CAUSE_BAD_NAME,
    not_wit = WITC_CAUSE_NOT_WIT,
    disagree = WITC_CAUSE_DISAGREE,
    too_deep = WITC_CAUSE_TOO_DEEP,
    trailing = WITC_CAUSE_TRAILING,
    no_package = WITC_CAUSE_NO_PACKAGE,
};

/// What two sections clash in.
enum class clash : std::uint32_t {
    interface = WITC_CLASH_INTERFACE,
    world = WITC_CLASH_WORLD,
    import = WITC_CLASH_IMPORT,
    export_ = WITC_CLASH_EXPORT,
    encoding = WITC_CLASH_ENCODING,
};

/// How strings are passed.
enum class encoding : std::uint32_t { utf8 = WITC_UTF8, utf16 = WITC_UTF16, latin1_utf16 = WITC_LATIN1_UTF16 };

/// Why a call is refused: what() is the message, code() says which refusal it is, and subject() is the name that it is about, or empty.
class refusal : public std::runtime_error {
  public:
    explicit refusal(const witc_answer &a)
        : std::runtime_error(std::string(reinterpret_cast<const char *>(a.at), a.length)), why_(a.why),
          subject_(reinterpret_cast<const char *>(a.at) + (a.length - a.why.subject), a.why.subject) {}

    [[nodiscard]] witc::code code() const noexcept { return static_cast<witc::code>(why_.code); }
    /// The cause, if the code is no_reading.
    [[nodiscard]] std::optional<witc::cause> cause() const noexcept {
        return why_.code == WITC_NO_READING ? std::optional(static_cast<witc::cause>(why_.detail)) : std::nullopt;
    }
    /// What two sections clash in, if the code is clash.
    [[nodiscard]] std::optional<witc::clash> clash() const noexcept {
        return why_.code == WITC_CLASH ? std::optional(static_cast<witc::clash>(why_.detail)) : std::nullopt;
    }
    /// Whether this is the answer no of require_compatible(): the worlds are read, and one can't replace the other.
    [[nodiscard]] bool is_no() const noexcept { return witc_is_no(why_.code) != 0; }
    /// The code as a number, one of WITC_TOO_LARGE .. WITC_BAD_COUNT.
    [[nodiscard]] std::uint32_t number() const noexcept { return why_.code; }
    /// The detail as a number: of bad_text and two_packages, and of not_utf8 for texts, the number of the text, from 0.
    [[nodiscard]] std::uint32_t detail() const noexcept { return why_.detail; }
    [[nodiscard]] bool has_offset() const noexcept { return why_.offset != WITC_NOWHERE; }
    [[nodiscard]] std::size_t offset() const noexcept { return why_.offset; }
    [[nodiscard]] const std::string &subject() const noexcept { return subject_; }

  private:
    witc_why why_;
    std::string subject_;
};

namespace detail {
/// Throws if the library that is loaded has another interface than this header. It looks once.
inline void look_at_interface() {
    static const bool met = witc_abi() == WITC_ABI;
    if (!met) throw std::runtime_error("libwitc has another interface than witc.h: install both from one version");
}
inline const std::uint8_t *at(std::string_view b) { return reinterpret_cast<const std::uint8_t *>(b.data()); }
/// The same, or a pointer that isn't null where there are no bytes.
inline const std::uint8_t *some(std::string_view b) { return b.empty() ? witc_some(nullptr) : at(b); }
}  // namespace detail

/// Bytes made by the library. They are moved, not copied, and freed with the last value that owns them.
class bytes {
  public:
    bytes(bytes &&other) noexcept : raw_(std::exchange(other.raw_, witc_answer WITC_NO_ANSWER)) {}
    bytes &operator=(bytes &&other) noexcept {
        if (this != &other) {
            witc_free(&raw_);
            raw_ = std::exchange(other.raw_, witc_answer WITC_NO_ANSWER);
        }
        return *this;
    }
    bytes(const bytes &) = delete;
    bytes &operator=(const bytes &) = delete;
    ~bytes() { witc_free(&raw_); }

    /// Null if there are no bytes.
    [[nodiscard]] const std::uint8_t *data() const noexcept { return empty() ? nullptr : raw_.at; }
    [[nodiscard]] std::size_t size() const noexcept { return raw_.length; }
    [[nodiscard]] bool empty() const noexcept { return raw_.length == 0; }
    [[nodiscard]] std::string_view view() const & noexcept { return {reinterpret_cast<const char *>(data()), size()}; }
    /// On a temporary: a string, which owns its bytes.
    [[nodiscard]] std::string view() && { return std::string(static_cast<const bytes &>(*this).view()); }
    operator std::string_view() const & noexcept { return view(); }

    /// The result of a call, from an answer that is freed even if this throws.
    template <class Call> [[nodiscard]] static bytes of(Call call) {
        detail::look_at_interface();
        bytes made;
        switch (call(&made.raw_)) {
            case WITC_DONE: return made;
            case WITC_NO_MEMORY: throw std::bad_alloc();
            default: throw refusal(made.raw_);
        }
    }

    /// The sections in an answer of witc_module_sections.
    [[nodiscard]] std::vector<std::string> sections() const {
        std::vector<std::string> found;
        for (witc_section it = WITC_NO_SECTION; witc_next_section(&raw_, &it);) found.emplace_back(reinterpret_cast<const char *>(it.at), it.length);
        return found;
    }

  private:
    bytes() noexcept : raw_ WITC_NO_ANSWER {}
    witc_answer raw_;
};

#define WITC_CPP_CALL(name) \
    [[nodiscard]] inline bytes name(std::string_view b) { \
        return bytes::of([&](witc_answer *a) { return witc_##name(detail::at(b), b.size(), a); }); \
    }
// A text of more than `most` bytes is refused with code::text_too_long.
#define WITC_CPP_CALL_WITHIN(name) \
    [[nodiscard]] inline bytes name(std::string_view b, std::size_t most) { \
        return bytes::of([&](witc_answer *a) { return witc_##name(detail::at(b), b.size(), most, a); }); \
    }
WITC_CPP_CALL(package_text)
WITC_CPP_CALL_WITHIN(package_text_within)
WITC_CPP_CALL(package_json)
WITC_CPP_CALL(world_text)
WITC_CPP_CALL_WITHIN(world_text_within)
WITC_CPP_CALL(world_json)
WITC_CPP_CALL(world_package)
WITC_CPP_CALL(module_text)
WITC_CPP_CALL_WITHIN(module_text_within)
WITC_CPP_CALL(module_json)
WITC_CPP_CALL(module_package)
WITC_CPP_CALL(module_strip)
#undef WITC_CPP_CALL
#undef WITC_CPP_CALL_WITHIN

[[nodiscard]] inline bytes package_bytes(std::string_view b, bool canonical = false) {
    return bytes::of([&](witc_answer *a) { return witc_package_bytes(detail::at(b), b.size(), canonical, a); });
}
/// The data of one section that carries a world. To take all of them, module_sections() is better, since each call walks the module anew.
[[nodiscard]] inline bytes module_section(std::string_view b, std::size_t number) {
    return bytes::of([&](witc_answer *a) { return witc_module_section(detail::at(b), b.size(), number, a); });
}
/// The data of each section that carries a world, in order.
[[nodiscard]] inline std::vector<std::string> module_sections(std::string_view b) {
    return bytes::of([&](witc_answer *a) { return witc_module_sections(detail::at(b), b.size(), a); }).sections();
}
[[nodiscard]] inline bytes embed(std::string_view b, std::string_view world, encoding e = encoding::utf8, bool canonical = false) {
    return bytes::of([&](witc_answer *a) {
        return witc_embed(detail::at(b), b.size(), world.data(), world.size(), static_cast<std::uint32_t>(e), canonical, a);
    });
}
[[nodiscard]] inline bytes attach(std::string_view module, std::string_view b, std::string_view world, encoding e = encoding::utf8, bool canonical = false) {
    return bytes::of([&](witc_answer *a) {
        return witc_attach(detail::at(module), module.size(), detail::at(b), b.size(), world.data(), world.size(), static_cast<std::uint32_t>(e), canonical, a);
    });
}
/// Throws a refusal if the package's world `next` can't replace its world `prev`. Then is_no() holds of it, and its subject() is the first item in the way.
inline void require_compatible(std::string_view b, std::string_view prev, std::string_view next) {
    static_cast<void>(bytes::of([&](witc_answer *a) { return witc_compat(detail::at(b), b.size(), prev.data(), prev.size(), next.data(), next.size(), a); }));
}
/// Whether the package's world `next` can replace its world `prev`. Throws a refusal if the bytes or a name are bad.
[[nodiscard]] inline bool compatible(std::string_view b, std::string_view prev, std::string_view next) {
    try {
        require_compatible(b, prev, next);
        return true;
    } catch (const refusal &r) {
        if (r.is_no()) return false;
        throw;
    }
}
/// Whether a world of one package means exactly what a world of another package does.
[[nodiscard]] inline bool same_world(std::string_view b, std::string_view world, std::string_view other, std::string_view other_world) {
    try {
        static_cast<void>(bytes::of([&](witc_answer *a) {
            return witc_same_world(detail::at(b), b.size(), world.data(), world.size(), detail::at(other), other.size(), other_world.data(),
                                   other_world.size(), a);
        }));
        return true;
    } catch (const refusal &r) {
        if (r.code() == code::differs) return false;
        throw;
    }
}

/// A WIT text in UTF-8, behind the name by which messages call it, as a path. A text with an empty name is called `text N`, by its number from 0.
struct text {
    std::string_view name, bytes;
};
/// The bytes of the package with which the first `own` texts begin. The others are of packages that these use. Where a text is refused, this throws
/// code::bad_text: the message names the text, the line and the column, detail() is the number of the text, and offset() is in it.
[[nodiscard]] inline bytes texts_package(const std::vector<text> &texts, std::size_t own) {
    std::vector<witc_text> raw;
    raw.reserve(texts.size());
    for (const text &t : texts) raw.push_back({detail::some(t.bytes), t.bytes.size(), detail::some(t.name), t.name.size()});
    return bytes::of([&](witc_answer *a) { return witc_texts_package(raw.data(), raw.size(), own, a); });
}
/// The same where all texts are own ones.
[[nodiscard]] inline bytes texts_package(const std::vector<text> &texts) { return texts_package(texts, texts.size()); }

/// What bytes are: none of the three, or one or more of them.
struct kind_set {
    bool package, world, module;
    friend bool operator==(kind_set a, kind_set b) noexcept { return a.package == b.package && a.world == b.world && a.module == b.module; }
    friend bool operator!=(kind_set a, kind_set b) noexcept { return !(a == b); }
};
/// Throws std::bad_alloc if it isn't known: when out of memory, or if a list of bindings would get too long.
[[nodiscard]] inline kind_set kinds(std::string_view b) {
    detail::look_at_interface();
    const unsigned sum = witc_kinds(detail::at(b), b.size());
    if (sum == WITC_KIND_UNKNOWN) throw std::bad_alloc();
    return {(sum & WITC_IS_PACKAGE) != 0, (sum & WITC_IS_WORLD) != 0, (sum & WITC_IS_MODULE) != 0};
}

}  // namespace witc

#endif
