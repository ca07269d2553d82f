// Tests of sfv.hpp. Usage: test_sfv bindings/errors <crates/sfv_replay/stdin
#include <atomic>
#include <fstream>
#include <iostream>
#include <sstream>
#include <thread>

#include <sfv.h>

// The number of calls that build a tree.
static std::atomic<int> trees;
#define sfv_canonical(...) (trees++, sfv_canonical(__VA_ARGS__))
#include "sfv.hpp"

namespace {

constexpr std::int64_t largest = 999'999'999'999'999;
int errors = 0;

void expect(bool holds, std::string_view name) {
    if (!holds && errors++ < 20) std::cout << "wrong: " << name << '\n';
}

template <class Input, class = void> struct is_input : std::false_type {};
template <class Input>
struct is_input<Input, std::void_t<decltype(sfv::parse(sfv::type::item, std::declval<Input>()))>> : std::true_type {};
static_assert(is_input<const char *>::value && is_input<std::string_view>::value && is_input<std::string &>::value);
static_assert(!is_input<std::string>::value && !is_input<const std::string>::value, "a field borrows from its input");
static_assert(!std::is_copy_constructible_v<sfv::field> && !std::is_copy_constructible_v<sfv::writer>);
static_assert(std::is_nothrow_move_constructible_v<sfv::field>);

// The status of the error that this call throws.
template <class Call> sfv_status thrown(Call call) {
    try {
        call();
    } catch (const sfv::error &error) {
        return error.code.status();
    }
    return SFV_OK;
}

// The type with this name in a line of tests.
sfv::type type_of(const std::string &name) {
    return name == "item" ? sfv::type::item : name == "list" ? sfv::type::list : sfv::type::dictionary;
}

std::string bytes_of(const std::string &hexadecimal) {
    std::string bytes;
    if (hexadecimal == "-" || hexadecimal == "none") return bytes;
    for (std::size_t i = 0; i < hexadecimal.size(); i += 2)
        bytes += static_cast<char>(std::stoi(hexadecimal.substr(i, 2), nullptr, 16));
    return bytes;
}

// Writes the rows of a parsed field by a writer, key by key and value by value.
std::string rewritten(sfv::type type, const sfv::field &field) {
    sfv::writer writer(type);
    for (sfv::row row : field) {
        switch (row.tag()) {
        case SFV_KEYED_ENTRY: writer.key(row.key()); break;
        case SFV_BEGIN_INNER: writer.begin_inner(); break;
        case SFV_BARE_ITEM: writer.item(row.value().value()); break;
        case SFV_PARAMETER: writer.parameter(row.key(), row.value().value()); break;
        case SFV_END_INNER: writer.end_inner(); break;
        default: expect(!row.value(), "a row without a value"); break;
        }
    }
    return writer.text();
}

// A line is `TYPE VERSION HEX CALLS RESULT`. CALLS is one more than the number of rows.
void replay(const std::string &line) {
    std::istringstream words(line);
    std::string type_name, hexadecimal, status, result;
    int version_number = 0, calls = 0;
    words >> type_name >> version_number >> hexadecimal >> calls >> status;
    std::getline(words >> std::ws, result);
    std::string input = bytes_of(hexadecimal);
    sfv::type type = type_of(type_name);
    auto version = static_cast<sfv::version>(version_number);
    sfv::error_code code;
    std::optional<sfv::field> parsed = sfv::parse(type, input, code, version);
    if (status == "err") {
        expect(!parsed && code.status() == SFV_REJECTED && code.message() == result, line);
        expect(thrown([&] { sfv::parse(type, input, version); }) == SFV_REJECTED, line);
        return;
    }
    sfv::field moved = std::move(parsed.value());
    std::string text = bytes_of(result);
    expect(!code && code.kind() == SFV_ERR_NONE && moved.text() == text, line);
    expect(std::distance(moved.begin(), moved.end()) + 1 == calls, line);
    expect(rewritten(type, moved) == text && sfv::canonical(type, input, version) == text, line);
}

void test_look_ups() {
    sfv::field field = sfv::parse(sfv::type::dictionary, "u=1, i, u=5;x;q=0.5;x=\"a\\\"b\", in=(1 2;y);z=:YQ==:, f=?0");
    expect(field.get<std::int64_t>("u") == 5, "the last value");
    expect(!field.get<bool>("u") && !field.get<bool>("none") && !field.member(""), "no such value");
    expect(field.get<bool>("i") == true && field.get<bool>("f") == false, "booleans");
    std::optional<sfv::row> u = field.member("u");
    expect(u && u->get<std::string_view>("x") == "a\"b", "the last parameter");
    expect(u && u->get<sfv::decimal>("q").value().thousandths == 500, "a decimal");
    std::optional<sfv::row> in = field.member("in");
    expect(in && in->tag() == SFV_BEGIN_INNER && !in->value() && !in->parameter("y"), "an inner list");
    expect(in && in->get<sfv::byte_sequence>("z").value().bytes == "a", "a byte sequence");
    expect(field.text() == "u=5;x=\"a\\\"b\";q=0.5, i, in=(1 2;y);z=:YQ==:, f=?0", "the canonical text");
}

void test_moves() {
    std::string input = "\"\\\\\";a=:YWJj:";
    sfv::field first = sfv::parse(sfv::type::item, input);
    sfv::field second = std::move(first);
    first = sfv::parse(sfv::type::item, "1");
    std::swap(first, second);
    expect(first.front().get<std::string_view>() == "\\", "the text of a moved field");
    sfv::writer writer(sfv::type::list);
    writer.item(std::string("short")).parameter(std::string("k"), sfv::token{std::string("t")});
    sfv::writer other = std::move(writer);
    expect(other.text() == "\"short\";k=t", "the text of a moved writer");
}

void test_no_input() {
    expect(thrown([] { sfv::parse(sfv::type::item, std::string_view()); }) == SFV_REJECTED, "an empty item");
    sfv::field list = sfv::parse(sfv::type::list, {});
    expect(list.begin() == list.end() && list.text().empty(), "an empty list");
    bool is_thrown = false;
    try {
        list.front();
    } catch (const std::out_of_range &) {
        is_thrown = true;
    }
    expect(is_thrown, "the first row of an empty list");
    expect(sfv::writer(sfv::type::dictionary).text().empty(), "no members");
    expect(thrown([] { sfv::writer(sfv::type::item).text(); }) == SFV_WRONG_ROW, "no item");
}

void test_nul() {
    sfv::error_code code;
    expect(!sfv::parse(sfv::type::item, std::string_view("1\0", 2), code) && code.index() == 1, "a NUL after an item");
    expect(!sfv::parse(sfv::type::item, std::string_view("\"a\0\"", 4), code) && code.index() == 2, "a NUL in a string");
    expect(code.kind() == SFV_ERR_INVALID_STRING_CHARACTER, "the kind");
    std::string_view bytes("a\0b", 3);
    expect(sfv::writer(sfv::type::item).item(sfv::byte_sequence{bytes}).text() == ":YQBi:", "NUL in bytes");
    expect(thrown([] { sfv::writer(sfv::type::item).item(std::string_view("\0", 1)).text(); }) == SFV_WRONG_ROW, "NUL");
    expect(thrown([&] { sfv::writer(sfv::type::item).item(true).parameter(bytes, true).text(); }) == SFV_WRONG_ROW, "NUL");
}

void test_large() {
    std::string list;
    for (int i = 0; i < 70'000; i++) list += (i ? ", token" : "token") + std::to_string(i) + ";q=1";
    expect(list.size() > 1'000'000, "a field of 1 MB");
    sfv::field field = sfv::parse(sfv::type::list, list);
    expect(field.text() == list && rewritten(sfv::type::list, field) == list, "a list of 1 MB");
    std::string item = '"' + std::string(1'000'000, '\\') + '"';
    sfv::field string = sfv::parse(sfv::type::item, item);
    expect(string.front().get<std::string_view>() == item.substr(1, 500'000), "a string of 1 MB");
}

// A line of bindings/errors is `TYPE VERSION INPUT KIND NAME INDEX MESSAGE`, between tabs.
void test_syntax_errors(const char *path) {
    std::ifstream file(path);
    int kinds = 0;
    for (std::string line; std::getline(file, line); kinds++) {
        std::istringstream words(line);
        std::string type, version, input, kind, name, index, message;
        for (std::string *word : {&type, &version, &input, &kind, &name, &index, &message})
            std::getline(words, *word, '\t');
        message += " at index " + index;
        auto has_reason = [&](const sfv::error_code &code) {
            return code && code.status() == SFV_REJECTED && std::to_string(code.kind()) == kind
                && std::to_string(code.index()) == index && code.message() == message;
        };
        auto number = static_cast<sfv::version>(std::stoi(version));
        sfv::error_code code;
        expect(!sfv::parse(type_of(type), input, code, number) && has_reason(code), line);
        auto is_thrown = [&](auto call) {
            try {
                call();
            } catch (const sfv::error &error) {
                return has_reason(error.code) && error.what() == message;
            }
            return false;
        };
        expect(is_thrown([&] { sfv::parse(type_of(type), input, number); }), "thrown: " + line);
        expect(is_thrown([&] { sfv::canonical(type_of(type), input, number); }), "canonical: " + line);
    }
    expect(kinds == SFV_ERR_EXPECTED_START_OF_KEY - SFV_ERR_INVALID_CHARACTER, "each kind");
}

// The error that this call throws.
template <class Call> sfv::error_code reason(Call call) {
    try {
        call();
    } catch (const sfv::error &error) {
        expect(error.what() == error.code.message(), "the text of an error");
        return error.code;
    }
    return sfv::error_code();
}

void test_other_errors() {
    auto unknown_type = static_cast<sfv::type>(4);
    auto unknown_version = static_cast<sfv::version>(1);
    for (sfv::error_code code : {reason([&] { sfv::parse(unknown_type, "1"); }),
                                 reason([&] { sfv::parse(sfv::type::item, "1", unknown_version); }),
                                 reason([&] { sfv::canonical(unknown_type, "1"); })}) {
        expect(code.status() == SFV_BAD_ARGUMENT && code.kind() == SFV_ERR_NONE && code.index() == 0, "a bad argument");
        expect(code.message() == "bad argument", "the text of a bad argument");
    }
    sfv::writer writer(sfv::type::list);
    sfv::error_code code = reason([&] { writer.item(1).item(sfv::date{1}).item(2).text(sfv::version::rfc8941); });
    expect(code.status() == SFV_UNSUPPORTED && code.kind() == SFV_ERR_NONE && code.index() == 0, "a date");
    expect(code.message() == "RFC 8941 does not support dates", "the text of a date");
    sfv::field display = sfv::parse(sfv::type::item, "%\"a\"");
    code = reason([&] { display.text(sfv::version::rfc8941); });
    expect(code.status() == SFV_UNSUPPORTED, "a display string");
    expect(code.message() == "RFC 8941 does not support display strings", "the text of a display string");
    // The rows are ENTRY, BEGIN_ITEM, BARE_ITEM, END_PARAMETERS for the first item.
    code = reason([] { sfv::writer(sfv::type::list).item(1).item(sfv::token{"a b"}).text(); });
    expect(code.status() == SFV_WRONG_ROW && code.kind() == SFV_ERR_NONE && code.index() == 6, "the index of a wrong row");
    expect(code.message() == "no field has these rows", "the text of a wrong row");
    expect(!reason([] { sfv::writer(sfv::type::list).text(); }), "no members");
}

sfv_answer answer_of(std::uint32_t status, std::uint32_t kind) {
    sfv_answer answer = {};
    answer.status = status;
    answer.kind = kind;
    return answer;
}

// Numbers of another library. No cast may be undefined.
void test_unknown_numbers() {
    for (std::uint32_t status : {8u, 0xffffffffu}) {
        sfv::error_code code(answer_of(status, 0));
        expect(code && code.status() == SFV_BAD_ARGUMENT && code.message() == "unknown status", "an unknown status");
    }
    for (std::uint32_t kind : {31u, 0xffffffffu}) {
        sfv::error_code code(answer_of(SFV_REJECTED, kind));
        expect(code && code.status() == SFV_REJECTED && code.kind() == SFV_ERR_NONE, "an unknown kind of error");
    }
    sfv_row raw = sfv_tag_row(SFV_END_INNER);
    expect(sfv::row(&raw).tag() == SFV_END_INNER, "the last tag");
    for (std::uint32_t number : {9u, 0xffffffffu}) {
        raw.tag = raw.kind = number;
        expect(sfv::row(&raw).tag() == 0 && !sfv::row(&raw).value(), "an unknown tag and value");
    }
}

void test_out_of_memory() {
    bool is_thrown = false;
    try {
        sfv::detail::checked(answer_of(SFV_OUT_OF_MEMORY, SFV_ERR_OUT_OF_MEMORY));
    } catch (const std::bad_alloc &) {
        is_thrown = true;
    }
    expect(is_thrown, "out of memory");
}

// The first buffers of a parser have 64 rows, and of a writer one byte and a half for each byte.
void test_second_buffers() {
    std::string list;
    for (int i = 0; i < 70; i++) list += (i ? ", \"\\\\" : "\"\\\\") + std::to_string(i) + " is a number\\\"\"";
    sfv::field field = sfv::parse(sfv::type::list, list);
    sfv::field moved = std::move(field);
    int strings = 0;
    for (sfv::row row : moved) {
        if (row.tag() != SFV_BARE_ITEM) continue;
        expect(row.get<std::string_view>() == "\\" + std::to_string(strings++) + " is a number\"", "an escaped string");
    }
    expect(strings == 70 && moved.text() == list && rewritten(sfv::type::list, moved) == list, "escaped strings");
    std::string quotes(1000, '"');
    expect(sfv::writer(sfv::type::item).item(quotes).text().size() == 2002, "a long escaped string");
    std::string items;
    for (int i = 0; i < 100; i++) items += i ? ",a" : "a";
    expect(sfv::canonical(sfv::type::list, items).size() == 298, "a text longer than its input");
}

// A field of more than 500 bytes, so that each call needs a second buffer.
void test_rfc8941() {
    const sfv::version old = sfv::version::rfc8941;
    std::string input;
    sfv::writer writer(sfv::type::dictionary);
    for (int i = 0; i < 80; i++) {
        std::string key = "k" + std::to_string(i);
        input += (i ? ", " : "") + key + "=\"\\\"\"";
        writer.key(key).item("\"");
    }
    expect(input.size() > 500, "a field of 500 bytes");
    sfv::field field = sfv::parse(sfv::type::dictionary, input, old);
    expect(field.text(old) == input && field.text() == input && writer.text(old) == input, "a text of 500 bytes");
    expect(sfv::canonical(sfv::type::dictionary, input, old, old) == input, "the canonical text of 500 bytes");
    expect(sfv::canonical(sfv::type::dictionary, input + ", k0=1", old, old).find("k0=1, k1=") == 0, "a repeated key");
    std::string with_date = input + ", d=@1";
    sfv::error_code code;
    expect(!sfv::parse(sfv::type::dictionary, with_date, code, old) && code.kind() == SFV_ERR_RFC8941_DATE, "no dates");
    expect(code.index() == input.size() + 4, "the index of a date");
    sfv::field dated = sfv::parse(sfv::type::dictionary, with_date);
    expect(dated.text() == with_date && dated.text(sfv::version::rfc9651) == with_date, "a date");
    expect(thrown([&] { dated.text(old); }) == SFV_UNSUPPORTED, "no dates");
    writer.key("d").item(sfv::date{1});
    expect(writer.text() == with_date && thrown([&] { writer.text(old); }) == SFV_UNSUPPORTED, "no dates");
    // The canonical text is written from a tree.
    with_date += ", d=@2";
    sfv::field repeated = sfv::parse(sfv::type::dictionary, with_date);
    expect(repeated.text() == input + ", d=@2", "a repeated date");
    expect(thrown([&] { repeated.text(old); }) == SFV_UNSUPPORTED, "no dates");
}

sfv_status status_of(const sfv::value &value) {
    return thrown([&] { sfv::writer(sfv::type::item).item(value).text(); });
}

void test_values_out_of_range() {
    for (std::int64_t number : {largest, -largest}) {
        expect(status_of(number) == SFV_OK && status_of(sfv::decimal{number}) == SFV_OK, "in range");
        expect(status_of(sfv::date{number}) == SFV_OK, "in range");
    }
    for (std::int64_t number : {largest + 1, -largest - 1, INT64_MAX, INT64_MIN}) {
        expect(status_of(number) == SFV_WRONG_ROW && status_of(sfv::decimal{number}) == SFV_WRONG_ROW, "out of range");
        expect(status_of(sfv::date{number}) == SFV_WRONG_ROW, "out of range");
    }
    for (const char *text : {"", "a b", "1a", "\xc3\xa9"}) expect(status_of(sfv::token{text}) == SFV_WRONG_ROW, "no token");
    expect(status_of("\xc3\xa9") == SFV_WRONG_ROW && status_of("a\n") == SFV_WRONG_ROW, "no string");
    expect(status_of(sfv::display_string{"\xff"}) == SFV_WRONG_ROW, "no UTF-8");
    expect(status_of(sfv::display_string{"\xc3\xa9"}) == SFV_OK && status_of("") == SFV_OK, "texts");
    for (const char *key : {"", "A", "1", "a b"})
        expect(thrown([&] { sfv::writer(sfv::type::item).item(1).parameter(key, true).text(); }) == SFV_WRONG_ROW, "no key");
}

void test_writer() {
    sfv::writer writer(sfv::type::dictionary);
    writer.key("a").item(1).parameter("x", "b").key("c").begin_inner().item(sfv::token{"d"}).item(2).end_inner();
    writer.parameter("y", sfv::date{3}).key("a").item(sfv::display_string{"e"});
    expect(writer.text() == "a=%\"e\", c=(d 2);y=@3", "a dictionary");
    expect(thrown([&] { writer.text(sfv::version::rfc8941); }) == SFV_UNSUPPORTED, "RFC 8941 has no dates");
    expect(thrown([] { sfv::writer(sfv::type::list).parameter("a", 1).text(); }) == SFV_WRONG_ROW, "a first parameter");
    expect(thrown([] { sfv::writer(sfv::type::list).begin_inner().item(1).text(); }) == SFV_WRONG_ROW, "no end");
    expect(thrown([] { sfv::writer(sfv::type::list).begin_inner().begin_inner().text(); }) == SFV_WRONG_ROW, "nested");
    expect(thrown([] { sfv::writer(sfv::type::dictionary).item(1).text(); }) == SFV_WRONG_ROW, "no key");
    expect(thrown([] { sfv::writer(sfv::type::item).item(1).item(2).text(); }) == SFV_WRONG_ROW, "two items");
    expect(thrown([] { sfv::writer(sfv::type::item).begin_inner().end_inner().text(); }) == SFV_WRONG_ROW, "no item");
}

// Checks the texts of a field and of its rewritten form. Both build a tree if and only if a key repeats.
void check_text(sfv::type type, std::string_view input, std::string_view text) {
    sfv::field field = sfv::parse(type, input);
    int before = trees, expected = input == text ? 0 : 1;
    expect(field.text() == text && trees - before == expected, input);
    before = trees;
    expect(rewritten(type, field) == text && trees - before == expected, input);
}

// A repeated key keeps its first position and takes its last value. The same key can be in two items.
void test_repeated_keys() {
    check_text(sfv::type::item, "1;a;b;a=2", "1;a=2;b");
    check_text(sfv::type::list, "1;a, 2;a, (3;a 4;a);a", "1;a, 2;a, (3;a 4;a);a");
    check_text(sfv::type::list, "1;a, (2 3;b;b=1)", "1;a, (2 3;b=1)");
    check_text(sfv::type::list, "(2 3);a;a=1", "(2 3);a=1");
    check_text(sfv::type::dictionary, "a;b, b;a, c=(1;a);b", "a;b, b;a, c=(1;a);b");
    check_text(sfv::type::dictionary, "b;x, a, c=(), b", "b, a, c=()");
    check_text(sfv::type::dictionary, "a, aa, b;a=1;aa=2;a=3", "a, aa, b;a=3;aa=2");
    std::string many;
    for (int i = 0; i < 50; i++) many += (i ? ", key" : "key") + std::to_string(i * 7 % 50) + "=1";
    check_text(sfv::type::dictionary, many, many);
    std::string expected = many;
    expected.replace(expected.find("key14=1"), 7, "key14=2");
    check_text(sfv::type::dictionary, many + ", key14=2", expected);
}

void test_threads() {
    const std::string input = "a;n=\"\\\\\", (1 b);q=:AAAA:";
    const sfv::field shared = sfv::parse(sfv::type::list, input);
    std::vector<std::thread> threads;
    std::vector<int> same(8);
    for (int &count : same)
        threads.emplace_back([&] {
            for (int i = 0; i < 2000; i++) count += sfv::parse(sfv::type::list, input).text() == shared.text();
        });
    for (std::thread &thread : threads) thread.join();
    for (int count : same) expect(count == 2000, "threads");
}

}  // namespace

int main(int count, char **arguments) {
    if (count != 2) return 2;
    int lines = 0;
    for (std::string line; std::getline(std::cin, line); lines++) replay(line);
    expect(lines == 2857, "the number of lines");
    test_look_ups();
    test_moves();
    test_no_input();
    test_nul();
    test_large();
    test_syntax_errors(arguments[1]);
    test_other_errors();
    test_unknown_numbers();
    test_out_of_memory();
    test_second_buffers();
    test_rfc8941();
    test_repeated_keys();
    test_values_out_of_range();
    test_writer();
    test_threads();
    std::cout << lines << " lines, " << errors << " errors\n";
    return errors != 0;
}
