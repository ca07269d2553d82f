// Programs that keep a view of a temporary. `-DPROGRAM=N` chooses one. Program 0 has no such view, so it compiles. Each
// other calls a deleted function, which its comment names, so it does not compile. examples/run tries them all.
#include "sfv.hpp"

std::string text();
const std::string constant_text();
const sfv::field constant_field();

int main() {
    const sfv::type type = sfv::type::dictionary;
    const std::string constant = text();
    std::string input = text();
    sfv::error_code code;
#if PROGRAM == 0
    const sfv::field field = sfv::parse(type, input);
    sfv::row front = field.front();
    std::optional<sfv::row> member = field.member("a");
    sfv::field::iterator begin = field.begin(), end = field.end();
    std::optional<std::string_view> string = field.get<std::string_view>("a");
    std::optional<sfv::token> token = field.get<sfv::token>("a");
    std::optional<sfv::byte_sequence> bytes = field.get<sfv::byte_sequence>("a");
    std::optional<sfv::display_string> display = field.get<sfv::display_string>("a");
    std::optional<std::int64_t> number = sfv::parse(type, input).get<std::int64_t>("a");
    std::optional<sfv::decimal> decimal = sfv::parse(type, constant).get<sfv::decimal>("a");
    std::optional<bool> boolean = sfv::parse(type, "a").get<bool>("a");
    std::optional<sfv::date> date = constant_field().get<sfv::date>("a");
    for (sfv::row row : sfv::parse(type, std::string_view(input))) front = row;
    return sfv::parse(type, constant, code) && sfv::parse(type, input).text() == sfv::canonical(type, constant_text())
        && member && begin == end && string && token && bytes && display && number && decimal && boolean && date;
#elif PROGRAM == 1  // parse
    sfv::field field = sfv::parse(type, text());
#elif PROGRAM == 2  // parse
    sfv::field field = sfv::parse(type, constant_text());
#elif PROGRAM == 3  // parse
    sfv::field field = sfv::parse(type, constant_text(), sfv::version::rfc8941);
#elif PROGRAM == 4  // parse
    std::optional<sfv::field> field = sfv::parse(type, text(), code);
#elif PROGRAM == 5  // parse
    std::optional<sfv::field> field = sfv::parse(type, constant_text(), code, sfv::version::rfc8941);
#elif PROGRAM == 6  // get
    std::optional<std::string_view> string = sfv::parse(type, input).get<std::string_view>("a");
#elif PROGRAM == 7  // get
    std::optional<sfv::token> token = sfv::parse(type, input).get<sfv::token>("a");
#elif PROGRAM == 8  // get
    std::optional<sfv::byte_sequence> bytes = sfv::parse(type, input).get<sfv::byte_sequence>("a");
#elif PROGRAM == 9  // get
    std::optional<sfv::display_string> display = constant_field().get<sfv::display_string>("a");
#elif PROGRAM == 10  // front
    sfv::row front = sfv::parse(type, input).front();
#elif PROGRAM == 11  // front
    sfv::row front = constant_field().front();
#elif PROGRAM == 12  // member
    std::optional<sfv::row> member = sfv::parse(type, input).member("a");
#elif PROGRAM == 13  // begin
    sfv::field::iterator begin = sfv::parse(type, input).begin();
#elif PROGRAM == 14  // end
    sfv::field::iterator end = constant_field().end();
#endif
}
