// Structured Field Values for HTTP (RFC 9651 and the older RFC 8941) for C++17, over the proved library libsfv.
//
//     sfv::field field = sfv::parse(sfv::type::dictionary, "u=1, i");
//     std::int64_t urgency = field.get<std::int64_t>("u").value_or(3);
//     for (sfv::row row : field) std::cout << row.key() << '\n';
//     std::string text = sfv::writer(sfv::type::list).item(sfv::token{"br"}).parameter("q", sfv::decimal{500}).text();
//
// A call without an error_code throws sfv::error. Every call throws std::bad_alloc if memory runs out.
#ifndef SFV_HPP
#define SFV_HPP

#include <algorithm>
#include <cstdint>
#include <deque>
#include <iterator>
#include <memory>
#include <new>
#include <optional>
#include <stdexcept>
#include <string>
#include <string_view>
#include <type_traits>
#include <utility>
#include <variant>
#include <vector>

#include <sfv.h>

namespace sfv {

enum class type { item = SFV_ITEM, list = SFV_LIST, dictionary = SFV_DICTIONARY };
enum class version { rfc8941 = SFV_RFC8941, rfc9651 = SFV_RFC9651 };

struct decimal { std::int64_t thousandths; };
struct token { std::string_view text; };
struct byte_sequence { std::string_view bytes; };
struct date { std::int64_t seconds; };             // since 1970
struct display_string { std::string_view text; };  // UTF-8

// The value of an item or parameter. An integer is std::int64_t, and a string is std::string_view.
using value = std::variant<std::int64_t, decimal, std::string_view, token, byte_sequence, bool, date, display_string>;

namespace detail {
// A number of the library as an enum, or `other` if it is above the last. A cast alone would be undefined.
template <class Enum> constexpr Enum known(std::uint32_t number, Enum last, Enum other) {
    return number <= static_cast<std::uint32_t>(last) ? static_cast<Enum>(number) : other;
}
}  // namespace detail

// The reason why a call fails. It converts to true if the call failed.
class error_code {
  public:
    error_code() = default;
    explicit error_code(const sfv_answer &answer) : answer_(answer) {}
    explicit operator bool() const { return status() != SFV_OK && status() != SFV_NOTHING; }
    // The status. One that this header does not know is SFV_BAD_ARGUMENT.
    sfv_status status() const { return detail::known(answer_.status, SFV_WRONG_ROW, SFV_BAD_ARGUMENT); }
    // The kind of the syntax error, or SFV_ERR_NONE for another error.
    sfv_error_kind kind() const {
        return detail::known(status() == SFV_REJECTED ? answer_.kind : 0, SFV_ERR_EXPECTED_START_OF_KEY, SFV_ERR_NONE);
    }
    // The index of the syntax error in the input, or of the wrong row.
    std::size_t index() const { return answer_.index; }
    std::string message() const {
        char text[SFV_TEXT_SIZE];
        std::string message = sfv_error_text(answer_, text);
        return status() == SFV_REJECTED ? message + " at index " + std::to_string(index()) : message;
    }

  private:
    sfv_answer answer_ = {};
};

struct error : std::runtime_error {
    explicit error(const error_code &reason) : std::runtime_error(reason.message()), code(reason) {}
    error_code code;
};

namespace detail {
inline std::string_view view(sfv_bytes bytes) { return {bytes.data, bytes.length}; }
inline sfv_type raw(type t) { return static_cast<sfv_type>(t); }
inline sfv_version raw(version v) { return static_cast<sfv_version>(v); }
inline error_code checked(const sfv_answer &answer) {
    if (answer.status == SFV_OUT_OF_MEMORY) throw std::bad_alloc();
    return error_code(answer);
}
inline sfv_row row_of(std::int64_t number) { return sfv_number_row(SFV_INTEGER, number); }
inline sfv_row row_of(decimal d) { return sfv_number_row(SFV_DECIMAL, d.thousandths); }
inline sfv_row row_of(std::string_view text) { return sfv_bytes_row(SFV_STRING, text.data(), text.size()); }
inline sfv_row row_of(token t) { return sfv_bytes_row(SFV_TOKEN, t.text.data(), t.text.size()); }
inline sfv_row row_of(byte_sequence b) { return sfv_bytes_row(SFV_BYTE_SEQUENCE, b.bytes.data(), b.bytes.size()); }
inline sfv_row row_of(bool is_true) { return sfv_number_row(SFV_BOOLEAN, is_true); }
inline sfv_row row_of(date d) { return sfv_number_row(SFV_DATE, d.seconds); }
inline sfv_row row_of(display_string d) { return sfv_bytes_row(SFV_DISPLAY_STRING, d.text.data(), d.text.size()); }
inline sfv_row row_of(const value &v) {
    return std::visit([](auto known) { return row_of(known); }, v);
}
// Returns the text that `write` writes to a buffer.
template <class Write> std::string written(std::size_t guess, Write write) {
    std::string out(guess, '\0');
    sfv_answer answer = write(out.data(), out.size());
    if (answer.status == SFV_TOO_SMALL) {
        out.resize(answer.length);
        answer = write(out.data(), out.size());
    }
    if (error_code code = checked(answer)) throw error(code);
    out.resize(answer.length);
    return out;
}
// The text of these rows, with each repeated key each time.
inline std::string written_rows(type t, version v, const std::vector<sfv_row> &rows) {
    std::size_t guess = 0;  // enough for most texts
    for (const sfv_row &row : rows) guess += row.key.length + row.bytes.length + row.bytes.length / 2 + 8;
    return written(guess, [&rows, t, v](char *out, std::size_t n) {
        return sfv_write(raw(t), raw(v), rows.data(), rows.size(), out, n);
    });
}
// Sorts the keys. Returns true if two are equal.
inline bool has_equal(std::vector<std::string_view> &keys) {
    std::sort(keys.begin(), keys.end());
    return std::adjacent_find(keys.begin(), keys.end()) != keys.end();
}
// Returns true if two members of the dictionary, or two parameters of an item or inner list, have the same key.
inline bool repeats_key(const std::vector<sfv_row> &rows) {
    std::vector<std::string_view> members, parameters;
    for (const sfv_row &row : rows) {
        if (row.tag == SFV_PARAMETER) {
            parameters.push_back(view(row.key));
            continue;
        }
        if (has_equal(parameters)) return true;
        parameters.clear();
        if (row.tag == SFV_KEYED_ENTRY) members.push_back(view(row.key));
    }
    return has_equal(members);
}
// Whether a T points to its text.
template <class T>
inline constexpr bool is_view = std::is_same_v<T, std::string_view> || std::is_same_v<T, token> ||
                                std::is_same_v<T, byte_sequence> || std::is_same_v<T, display_string>;
}  // namespace detail

// Parses a field and returns its canonical text. A repeated key keeps its first position and takes its last value.
inline std::string canonical(type t, std::string_view input, version reading = version::rfc9651,
                             version writing = version::rfc9651) {
    return detail::written(input.size(), [=](char *out, std::size_t n) {
        return sfv_canonical(detail::raw(t), detail::raw(reading), detail::raw(writing), input.data(), input.size(), out, n);
    });
}

// A part of a field, valid as long as the field and its input. The header sfv.h lists the tags and their order.
class row {
  public:
    explicit row(const sfv_row *raw) : raw_(raw) {}
    sfv_tag tag() const { return detail::known(raw_->tag, SFV_END_INNER, sfv_tag{}); }
    // The key of a member of a dictionary, or of a parameter; otherwise empty.
    std::string_view key() const { return detail::view(raw_->key); }

    // The value of an SFV_BARE_ITEM or SFV_PARAMETER.
    std::optional<sfv::value> value() const {
        std::string_view bytes = detail::view(raw_->bytes);
        switch (raw_->kind) {
        case SFV_INTEGER: return raw_->number;
        case SFV_DECIMAL: return decimal{raw_->number};
        case SFV_STRING: return bytes;
        case SFV_TOKEN: return token{bytes};
        case SFV_BYTE_SEQUENCE: return byte_sequence{bytes};
        case SFV_BOOLEAN: return raw_->number != 0;
        case SFV_DATE: return date{raw_->number};
        case SFV_DISPLAY_STRING: return display_string{bytes};
        default: return std::nullopt;
        }
    }
    // The value, if it is a T.
    template <class T> std::optional<T> get() const { return get_from<T>(*this); }

    // The last parameter with this key, of an SFV_BARE_ITEM or SFV_BEGIN_INNER.
    std::optional<row> parameter(std::string_view key) const {
        std::optional<row> found;
        const sfv_row *at = raw_;
        if (tag() != SFV_BARE_ITEM && tag() != SFV_BEGIN_INNER) return found;
        if (tag() == SFV_BEGIN_INNER)
            while (at->tag != SFV_END_INNER) at++;
        for (at++; at->tag == SFV_PARAMETER; at++)
            if (detail::view(at->key) == key) found = row(at);
        return found;
    }
    // The last parameter with this key, if its value is a T.
    template <class T> std::optional<T> get(std::string_view key) const { return get_from<T>(parameter(key)); }

  private:
    friend class field;
    template <class T> static std::optional<T> get_from(const std::optional<row> &found) {
        std::optional<sfv::value> any = found ? found->value() : std::nullopt;
        const T *known = any ? std::get_if<T>(&*any) : nullptr;
        return known ? std::optional<T>(*known) : std::nullopt;
    }

    const sfv_row *raw_;
};

// A parsed field: a range over its rows. They point to the input, and to decoded texts that the field owns. A repeated
// key has a row each time. A look-up finds its last value, and `text` writes that at the first position.
class field {
  public:
    class iterator {
      public:
        using iterator_category = std::input_iterator_tag;
        using value_type = row;
        using difference_type = std::ptrdiff_t;
        using pointer = const row *;
        using reference = row;
        explicit iterator(const sfv_row *at) : at_(at) {}
        row operator*() const { return row(at_); }
        iterator &operator++() { return ++at_, *this; }
        iterator operator++(int) { return iterator(at_++); }
        bool operator==(iterator other) const { return at_ == other.at_; }
        bool operator!=(iterator other) const { return at_ != other.at_; }
      private:
        const sfv_row *at_;
    };

    // Rows and texts of a temporary field would dangle, so these calls do not compile for one.
    iterator begin() const && = delete;
    iterator end() const && = delete;
    row front() const && = delete;
    std::optional<row> member(std::string_view key) const && = delete;
    template <class T, std::enable_if_t<detail::is_view<T>, int> = 0>
    std::optional<T> get(std::string_view key) const && = delete;

    iterator begin() const & { return iterator(rows_.data()); }
    iterator end() const & { return iterator(rows_.data() + rows_.size()); }
    // The first row: the SFV_BARE_ITEM of an item. Throws std::out_of_range for a list or dictionary without members.
    row front() const & {
        if (rows_.empty()) throw std::out_of_range("the field has no rows");
        return *begin();
    }
    // The last member of a dictionary with this key: its SFV_BARE_ITEM or SFV_BEGIN_INNER.
    std::optional<row> member(std::string_view key) const & {
        std::optional<row> found;
        for (iterator at = begin(); at != end(); ++at) {
            if ((*at).tag() != SFV_KEYED_ENTRY || (*at).key() != key) continue;
            row first = *++at;
            found = first.tag() == SFV_BEGIN_INNER ? first : *++at;
        }
        return found;
    }
    // The last member with this key, if its value is a T.
    template <class T> std::optional<T> get(std::string_view key) const & { return row::get_from<T>(member(key)); }
    template <class T, std::enable_if_t<!detail::is_view<T>, int> = 0>
    std::optional<T> get(std::string_view key) const && { return row::get_from<T>(member(key)); }

    // The canonical text, empty for a list or dictionary without members: do not send the field.
    std::string text(version writing = version::rfc9651) const {
        if (detail::repeats_key(rows_)) return canonical(type_, input_, version_, writing);
        return detail::written_rows(type_, writing, rows_);
    }

  private:
    friend std::optional<field> parse(type, std::string_view, error_code &, version);
    field(type t, version v, std::string_view input) : type_(t), version_(v), input_(input) {}
    sfv_answer fill(std::size_t rows, std::size_t room) {
        rows_.resize(rows);
        room_.reset(new char[room]);
        sfv_type t = detail::raw(type_);
        return sfv_parse(t, detail::raw(version_), input_.data(), input_.size(), rows_.data(), rows, room_.get(), room);
    }

    type type_;
    version version_;
    std::string_view input_;
    std::vector<sfv_row> rows_;
    std::unique_ptr<char[]> room_;  // a move keeps its address
};

// Parses a field. Returns nothing if the input is no such field; `code` has the reason.
inline std::optional<field> parse(type t, std::string_view input, error_code &code, version v = version::rfc9651) {
    field parsed(t, v, input);
    // Most fields have at most 64 rows. Others are parsed twice.
    std::size_t enough = SFV_ROWS_FOR(input.size());
    sfv_answer answer = parsed.fill(enough < 64 ? enough : 64, input.size());
    if (answer.status == SFV_TOO_SMALL) answer = parsed.fill(answer.rows, answer.length);
    code = detail::checked(answer);
    if (code) return std::nullopt;
    parsed.rows_.resize(answer.rows);
    return parsed;
}

inline field parse(type t, std::string_view input, version v = version::rfc9651) {
    error_code code;
    if (std::optional<field> parsed = parse(t, input, code, v)) return std::move(*parsed);
    throw error(code);
}

// A field borrows from its input, so a temporary string does not compile.
template <class Allocator, class... Rest>
field parse(type, const std::basic_string<char, std::char_traits<char>, Allocator> &&, Rest &&...) = delete;

// Writes a field part by part, and copies each text. `text` throws the error of a wrong order of calls, or of a value
// that no field can hold.
class writer {
  public:
    explicit writer(type t) : type_(t) {}
    writer(writer &&) = default;
    writer &operator=(writer &&) = default;
    // Begins a member of a dictionary. Its item or inner list follows.
    writer &key(std::string_view key) { return close().push(sfv_tag_row(SFV_KEYED_ENTRY), key); }
    writer &item(const value &v) { return begin(SFV_BEGIN_ITEM).push(detail::row_of(v)); }
    writer &begin_inner() { return begin(SFV_BEGIN_INNER); }
    // Ends the items of an inner list. Its parameters can follow.
    writer &end_inner() { return close().push(sfv_tag_row(SFV_END_INNER)); }
    // Appends a parameter to the last item, or to the inner list that ended.
    writer &parameter(std::string_view key, const value &v) {
        sfv_row parameter = detail::row_of(v);
        parameter.tag = SFV_PARAMETER;
        return push(parameter, key);
    }

    // The canonical text, empty for a list or dictionary without members: do not send the field.
    std::string text(version v = version::rfc9651) {
        close();
        std::string all = detail::written_rows(type_, v, rows_);
        return detail::repeats_key(rows_) ? canonical(type_, all, v, v) : all;
    }

  private:
    writer &push(sfv_row row, std::string_view key = {}) {
        if (!key.empty()) row.key = keep(key);
        if (row.bytes.length > 0) row.bytes = keep(detail::view(row.bytes));
        if (row.tag == SFV_BEGIN_INNER || row.tag == SFV_END_INNER) is_inner_ = row.tag == SFV_BEGIN_INNER;
        // An item or inner list is open until the row at the end of its parameters.
        is_open_ = row.tag == SFV_BARE_ITEM || row.tag == SFV_PARAMETER || row.tag == SFV_END_INNER;
        rows_.push_back(row);
        return *this;
    }
    writer &begin(sfv_tag tag) {
        close();
        if (type_ == type::list && !is_inner_) push(sfv_tag_row(SFV_ENTRY));
        return type_ == type::item ? *this : push(sfv_tag_row(tag));
    }
    writer &close() { return is_open_ ? push(sfv_tag_row(SFV_END_PARAMETERS)) : *this; }

    sfv_bytes keep(std::string_view text) {
        const std::string &kept = texts_.emplace_back(text);
        return {kept.data(), kept.size()};
    }

    type type_;
    std::vector<sfv_row> rows_;
    std::deque<std::string> texts_;  // a move keeps their addresses
    bool is_open_ = false;
    bool is_inner_ = false;
};

}  // namespace sfv

#endif
