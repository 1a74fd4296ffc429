/*
 * Simbolufa for C++17: the entries of simbolufa.h with views in place of pointers, and one answer.
 *
 * simbolufa.h says what each call does, what it refuses and how much stack it takes. Only `origin_line`,
 * `origin_lines`, `sat_table` and `tidied` allocate: they make containers of the caller as long as they have to
 * be. Nothing else here allocates or throws, and only `together` keeps state. The answer part is on the stack of
 * the call, so refusal 11 does not occur, and it overlaps no buffer of the caller.
 *
 * A guard from table to DIMACS text:
 *
 *   std::vector<uint8_t> set(simbolufa::nodes_of(table)), clauses;
 *   simbolufa::answer told = simbolufa::choose(table, options, 1024, set);
 *   size_t needed = 0;
 *   if (told)
 *       told = simbolufa::needed_bytes(table, options, set, needed);
 *   if (told) {
 *       clauses.resize(needed);
 *       told = simbolufa::convert(table, options, set, clauses);
 *   }
 *   std::string text;
 *   if (told) {
 *       text.resize(simbolufa::text_bytes(clauses, told.first));
 *       told = simbolufa::write_dimacs(clauses, told.first, text);
 *   }
 *
 * Where its clauses come from, with the names of options and helpers, a newline behind each:
 *
 *   std::string lines;
 *   if (told)
 *       told = simbolufa::origin_lines(table, options, set, option_names, helper_names, lines);
 *
 * Clauses without tautologies, repeats and repeated literals, and what was taken out of them:
 *
 *   std::vector<uint8_t> kept;
 *   std::string lines;
 *   simbolufa::answer tidy = simbolufa::tidied(clauses, variables, kept, lines);
 *   simbolufa::bytes left = lines;
 *   for (simbolufa::change one; simbolufa::take_change(left, one);)
 *       use(one.clause, one.what, one.number);
 *
 * A p sat text becomes a table, and its options are those of the answer:
 *
 *   std::vector<uint8_t> table;
 *   simbolufa::answer read = simbolufa::sat_table(text, table);
 *   if (read)
 *       use(table, read.first);
 *
 * Guards that are solved together, such as those of a branch inside a branch, are converted by one object
 * of the class `together`. Then their clauses share the project's options and nothing else.
 */
#ifndef SIMBOLUFA_HPP
#define SIMBOLUFA_HPP

#if __cplusplus < 201703L
#error "simbolufa.hpp needs C++17. simbolufa.h has the same entries for older standards"
#else

#include "simbolufa.h"

#include <cstddef>
#include <cstdint>
#include <type_traits>
#include <utility>

namespace simbolufa {

/* The version of these headers, and of the library that is installed with them. */
[[nodiscard]] constexpr const char *version() noexcept
{
    return SIMBOLUFA_VERSION;
}

namespace detail {

static_assert(std::is_same_v<std::uint8_t, unsigned char>, "bytes of every kind are read as uint8_t");

// What a byte is called here and there. Arrays of char are no buffers: a literal would bring its NUL.
template <class Byte>
inline constexpr bool is_byte = std::is_same_v<Byte, std::uint8_t> || std::is_same_v<Byte, char> ||
#ifdef __cpp_char8_t
                                std::is_same_v<Byte, char8_t> ||
#endif
                                std::is_same_v<Byte, std::byte>;

template <class Byte> constexpr auto *as_numbers(Byte *start) noexcept
{
    using number = std::conditional_t<std::is_const_v<Byte>, const std::uint8_t, std::uint8_t>;
    if constexpr (std::is_same_v<Byte, number>)
        return start;
    else
        return reinterpret_cast<number *>(start);
}

template <class Container> using pointer_of = decltype(std::declval<Container &>().data());
template <class Container> using element_of = std::remove_pointer_t<pointer_of<Container>>;
template <class Container> using size_of = decltype(std::declval<Container &>().size());

// Containers of bytes that may be read: std::vector, std::array, std::string, std::string_view, std::span.
template <class Container>
using readable = std::enable_if_t<std::is_pointer_v<pointer_of<const Container>> &&
                                  is_byte<std::remove_cv_t<element_of<const Container>>> &&
                                  std::is_convertible_v<size_of<const Container>, std::size_t>>;

// Those that may be written. A view, such as std::span, may be a constant or a temporary: its bytes are not.
template <class Container>
using writable = std::enable_if_t<std::is_pointer_v<pointer_of<Container>> && is_byte<element_of<Container>> &&
                                  std::is_convertible_v<size_of<Container>, std::size_t>>;

} // namespace detail

/* Bytes that a call reads: uint8_t, char, char8_t or std::byte. They are the caller's, and must outlive the view. */
struct bytes {
    const std::uint8_t *data = nullptr;
    std::size_t size = 0;

    constexpr bytes() noexcept = default;
    constexpr bytes(const std::uint8_t *start, std::size_t length) noexcept : data(start), size(length) {}
    template <class Byte, class = std::enable_if_t<detail::is_byte<Byte>>>
    constexpr bytes(const Byte *start, std::size_t length) noexcept : data(detail::as_numbers(start)), size(length)
    {
    }
    template <std::size_t count>
    constexpr bytes(const std::uint8_t (&array)[count]) noexcept : data(array), size(count)
    {
    }
    template <std::size_t count>
    constexpr bytes(const std::byte (&array)[count]) noexcept : data(detail::as_numbers(array + 0)), size(count)
    {
    }
    template <class Container, class = detail::readable<Container>>
    constexpr bytes(const Container &container) noexcept
        : data(detail::as_numbers(container.data())), size(container.size())
    {
    }
};

/* Bytes that a call writes, and that a later call may read, of the same types and for as long. */
struct room {
    std::uint8_t *data = nullptr;
    std::size_t size = 0;

    constexpr room() noexcept = default;
    constexpr room(std::uint8_t *start, std::size_t length) noexcept : data(start), size(length) {}
    template <class Byte, class = std::enable_if_t<detail::is_byte<Byte>>>
    constexpr room(Byte *start, std::size_t length) noexcept : data(detail::as_numbers(start)), size(length)
    {
    }
    template <std::size_t count>
    constexpr room(std::uint8_t (&array)[count]) noexcept : data(array), size(count)
    {
    }
    template <std::size_t count>
    constexpr room(std::byte (&array)[count]) noexcept : data(detail::as_numbers(array + 0)), size(count)
    {
    }
    template <class Container, class = detail::writable<Container>>
    constexpr room(Container &container) noexcept
        : data(detail::as_numbers(container.data())), size(container.size())
    {
    }
    template <class View, class = detail::writable<const View>>
    constexpr room(const View &view) noexcept : data(detail::as_numbers(view.data())), size(view.size())
    {
    }

    constexpr operator bytes() const noexcept { return {data, size}; }
};

/* Totals that are this or more show as this. A conversion of such a total is refused, by 5 or by 6. */
constexpr std::uint32_t clause_ceiling = 65535;
constexpr std::uint32_t literal_ceiling = 1000000;

/* The most variables of a DIMACS text. */
constexpr std::uint32_t most_variables = 40000;

/* The bytes of the longest table: 1,024 nodes. */
constexpr std::size_t longest_table = 5120;

/*
 * What a call says: number, place and its two values, which are 0 where it refuses. It is true where nothing is refused.
 * A compiler warns where it is not looked at.
 */
struct [[nodiscard]] answer : simbolufa_answer {
    [[nodiscard]] constexpr bool accepted() const noexcept { return number == SIMBOLUFA_ACCEPTED; }
    constexpr explicit operator bool() const noexcept { return accepted(); }
    /* Whether a record is refused, by 3, 12, 13 or 14. Then the place is its node. */
    [[nodiscard]] bool is_record() const noexcept { return simbolufa_is_record_refusal(number) != 0; }
    /* What the number says, in words, such as `a child is not below its node`. */
    [[nodiscard]] const char *sentence() const noexcept { return simbolufa_sentence(number); }
};

namespace detail {

// Makes a call with an answer part of its own.
template <class Call> answer told(Call call) noexcept
{
    std::uint8_t part[SIMBOLUFA_ANSWER_LENGTH];
    call(part, sizeof part);
    return answer{simbolufa_read_answer(part)};
}

// How many decimal digits a number has.
constexpr std::size_t digits_of(std::uint32_t number) noexcept
{
    std::size_t count = 1;
    for (; number > 9; number /= 10)
        count++;
    return count;
}

// A refusal without a place.
constexpr answer refusal(std::uint32_t number) noexcept
{
    return answer{simbolufa_answer{number, 0, 0, 0}};
}

} // namespace detail

/* The length of a set for a table: one byte a node. */
[[nodiscard]] constexpr std::size_t nodes_of(bytes table) noexcept
{
    return table.size / 5;
}

/* Checks a table. Both values are 0. */
inline answer check(bytes table, std::uint32_t options) noexcept
{
    return detail::told([=](std::uint8_t *part, std::size_t length) {
        simbolufa_check(table.data, table.size, options, part, length);
    });
}

/* Measures a conversion. Values: clause total, literal total. */
inline answer measure(bytes table, std::uint32_t options, bytes set) noexcept
{
    return detail::told([=](std::uint8_t *part, std::size_t length) {
        simbolufa_measure(table.data, table.size, options, set.data, set.size, part, length);
    });
}

/* Chooses a set of at most `allowance` nodes. Values: renamed nodes, clause total. */
inline answer choose(bytes table, std::uint32_t options, std::uint32_t allowance, room set) noexcept
{
    return detail::told([=](std::uint8_t *part, std::size_t length) {
        simbolufa_choose(table.data, table.size, options, allowance, set.data, set.size, part, length);
    });
}

/* Converts a table to clause bytes. Values: variables, clauses. */
inline answer convert(bytes table, std::uint32_t options, bytes set, room clauses) noexcept
{
    return detail::told([=](std::uint8_t *part, std::size_t length) {
        simbolufa_convert(table.data, table.size, options, set.data, set.size, clauses.data, clauses.size, part, length);
    });
}

/* Converts a guard that is solved together with others, after the variables taken. Values: variables, clauses. */
inline answer convert_after(bytes table, std::uint32_t options, std::uint32_t taken, bytes set, room clauses) noexcept
{
    return detail::told([=](std::uint8_t *part, std::size_t length) {
        simbolufa_convert_after(table.data, table.size, options, taken, set.data, set.size, clauses.data, clauses.size,
                                part, length);
    });
}

/* Guards of one project that are solved together. Each is converted after the variables of those before it. */
class together {
public:
    constexpr explicit together(std::uint32_t options) noexcept : project(options), taken(options) {}

    /* Converts the next guard. Values: variables so far, clauses of this guard. A refused guard takes no variable. */
    answer convert(bytes table, bytes set, room clauses) noexcept
    {
        const answer told = convert_after(table, project, taken, set, clauses);
        if (told)
            taken = told.first;
        return told;
    }

    /* The variables so far: the options, and the helpers of all guards. */
    [[nodiscard]] constexpr std::uint32_t variables() const noexcept { return taken; }

private:
    std::uint32_t project;
    std::uint32_t taken;
};

/*
 * Tells how many bytes convert and convert_after need for a table, options and a set.
 *
 * Where convert would refuse whatever the room is, the answer is that refusal, any but 7, with its place,
 * and `needed` is 0. Else the values are those of measure, and `needed` bytes are exactly enough.
 */
inline answer needed_bytes(bytes table, std::uint32_t options, bytes set, std::size_t &needed) noexcept
{
    needed = 0;
    const answer totals = measure(table, options, set);
    if (!totals)
        return totals;
    // In the order of convert: at the ceiling of clauses the literals show at theirs too.
    if (totals.first >= clause_ceiling)
        return detail::refusal(SIMBOLUFA_REFUSED_CLAUSES);
    if (totals.second >= literal_ceiling)
        return detail::refusal(SIMBOLUFA_REFUSED_LITERALS);
    needed = 4 * (static_cast<std::size_t>(totals.first) + totals.second);
    return totals;
}

/* Tells where clause `clause` comes from, in one line of text. Values: variables, clauses. */
inline answer origin(bytes table, std::uint32_t options, bytes set, std::uint32_t clause, bytes option_names,
                     bytes helper_names, room line) noexcept
{
    return detail::told([=](std::uint8_t *part, std::size_t length) {
        simbolufa_origin(table.data, table.size, options, set.data, set.size, clause, option_names.data,
                         option_names.size, helper_names.data, helper_names.size, line.data, line.size, part, length);
    });
}

/* Tells where all clauses come from, in a line for each. Values: variables, clauses. */
inline answer origins(bytes table, std::uint32_t options, bytes set, bytes option_names, bytes helper_names,
                      room lines) noexcept
{
    return detail::told([=](std::uint8_t *part, std::size_t length) {
        simbolufa_origins(table.data, table.size, options, set.data, set.size, option_names.data, option_names.size,
                          helper_names.data, helper_names.size, lines.data, lines.size, part, length);
    });
}

namespace detail {

// How many bytes the first lines of a text have. It has so many lines, or more.
constexpr std::size_t length_of_lines(bytes text, std::uint32_t lines) noexcept
{
    std::size_t length = 0;
    for (; lines > 0 && length < text.size; length++)
        if (text.data[length] == '\n')
            lines--;
    return length;
}

// Makes a call with a text of so many bytes, and again with twice as many as long as there is too little room.
template <class Text, class Call> answer told_with_room(Text &text, std::size_t length, Call call)
{
    text.resize(length);
    answer told = call(room(text));
    while (told.number == SIMBOLUFA_REFUSED_ROOM) {
        text.resize(2 * text.size());
        told = call(room(text));
    }
    return told;
}

// The least room that is tried.
constexpr std::size_t first_room = 256;

} // namespace detail

/*
 * The same as origin, into a std::string or another container of bytes that can be resized. What it held before is
 * gone: after the call it is exactly the line, or empty where the call refuses. Refusal 7 does not occur.
 */
template <class Text, class = detail::writable<Text>>
answer origin_line(bytes table, std::uint32_t options, bytes set, std::uint32_t clause, bytes option_names,
                   bytes helper_names, Text &line)
{
    const answer told = detail::told_with_room(line, detail::first_room, [&](room lent) {
        return origin(table, options, set, clause, option_names, helper_names, lent);
    });
    line.resize(told ? detail::length_of_lines(line, 1) : 0);
    return told;
}

/* The same as origins, in this way. */
template <class Text, class = detail::writable<Text>>
answer origin_lines(bytes table, std::uint32_t options, bytes set, bytes option_names, bytes helper_names, Text &lines)
{
    // Names may be of any length. This is enough where they have 30 bytes.
    std::size_t needed = 0;
    static_cast<void>(needed_bytes(table, options, set, needed));
    const answer told = detail::told_with_room(lines, detail::first_room + 8 * needed, [&](room lent) {
        return origins(table, options, set, option_names, helper_names, lent);
    });
    lines.resize(told ? detail::length_of_lines(lines, told.second) : 0);
    return told;
}

/*
 * Tells how many bytes the DIMACS text of these clause bytes has: write_dimacs needs exactly so many, and writes them.
 *
 * It is 0 where write_dimacs would refuse the clause bytes, by 9. No text is that short.
 */
[[nodiscard]] inline std::size_t text_bytes(bytes clauses, std::uint32_t variables) noexcept
{
    constexpr std::size_t header = sizeof "p cnf  \n" - 1;
    if (clauses.size % 4 != 0 || variables > most_variables)
        return 0;
    std::uint32_t closed = 0;
    std::uint32_t literals = 0;
    std::size_t length = 0;
    bool is_open = false;
    for (std::size_t at = 0; at < clauses.size; at += 4) {
        const std::uint32_t number = simbolufa_read_number(clauses.data + at);
        is_open = number != 0;
        if (!is_open) {
            // A zero and its newline.
            length += 2;
            closed++;
        } else {
            const bool is_negative = number > 0x7fffffff;
            const std::uint32_t variable = is_negative ? 0 - number : number;
            if (variable > variables)
                return 0;
            // A sign, the digits and a space.
            length += (is_negative ? 1 : 0) + detail::digits_of(variable) + 1;
            literals++;
        }
        if (closed >= clause_ceiling || literals >= literal_ceiling)
            return 0;
    }
    return is_open ? 0 : header + detail::digits_of(variables) + detail::digits_of(closed) + length;
}

/* Writes clause bytes as DIMACS text. Values: variables, clauses. */
inline answer write_dimacs(bytes clauses, std::uint32_t variables, room text) noexcept
{
    return detail::told([=](std::uint8_t *part, std::size_t length) {
        simbolufa_write_dimacs(clauses.data, clauses.size, variables, text.data, text.size, part, length);
    });
}

/* Reads DIMACS text into clause bytes. Values: declared variables, clauses. */
inline answer read_dimacs(bytes text, room clauses) noexcept
{
    return detail::told([=](std::uint8_t *part, std::size_t length) {
        simbolufa_read_dimacs(text.data, text.size, clauses.data, clauses.size, part, length);
    });
}

/* Reads p sat text into a table. Values: V, nodes. A room of `longest_table` bytes is enough for every text. */
inline answer read_sat(bytes text, room table) noexcept
{
    return detail::told([=](std::uint8_t *part, std::size_t length) {
        simbolufa_read_sat(text.data, text.size, table.data, table.size, part, length);
    });
}

/*
 * The same as read_sat, into a std::vector or another container of bytes that can be resized. What it held before is
 * gone: after the call it is exactly the table, or empty where the call refuses. Refusal 7 does not occur.
 */
template <class Table, class = detail::writable<Table>> answer sat_table(bytes text, Table &table)
{
    table.resize(longest_table);
    const answer told = read_sat(text, room(table));
    table.resize(5 * static_cast<std::size_t>(told.second));
    return told;
}

/* Tidies clause bytes. Values: lines, kept clauses. A room of as many bytes as the clauses have is enough for the kept ones. */
inline answer tidy(bytes clauses, std::uint32_t variables, room kept, room lines) noexcept
{
    return detail::told([=](std::uint8_t *part, std::size_t length) {
        simbolufa_tidy(clauses.data, clauses.size, variables, kept.data, kept.size, lines.data, lines.size, part, length);
    });
}

namespace detail {

// How many bytes the first clauses have. There are so many, or more.
inline std::size_t length_of_clauses(bytes clauses, std::uint32_t count) noexcept
{
    std::size_t length = 0;
    for (; count > 0 && length < clauses.size; length += 4)
        if (simbolufa_read_number(clauses.data + length) == 0)
            count--;
    return length;
}

} // namespace detail

/*
 * The same as tidy, into containers of bytes that can be resized, such as std::vector and std::string. They are other ones
 * than that of the clauses. What they held before is gone: after the call they are exactly the kept clauses and the lines,
 * or empty where the call refuses. Refusal 7 does not occur.
 */
template <class Kept, class Text, class = detail::writable<Kept>, class = detail::writable<Text>>
answer tidied(bytes clauses, std::uint32_t variables, Kept &kept, Text &lines)
{
    kept.resize(clauses.size);
    // Mostly this is enough. Lines never have more than 21 bytes for every four of the clauses.
    const answer told = detail::told_with_room(lines, detail::first_room + clauses.size, [&](room lent) {
        return tidy(clauses, variables, kept, lent);
    });
    kept.resize(told ? detail::length_of_clauses(kept, told.second) : 0);
    lines.resize(told ? detail::length_of_lines(lines, told.first) : 0);
    return told;
}

/* What goes, by the second field of a line of tidy. */
enum class changed { literal, tautology, repeat };

/* A line of tidy. simbolufa.h says what the numbers are. */
struct change {
    std::uint32_t clause = 0;
    changed what = changed::literal;
    std::uint32_t number = 0;
};

namespace detail {

// Takes a number and the byte behind it off a text.
constexpr bool take_number(bytes &text, std::uint8_t behind, std::uint32_t &number) noexcept
{
    // No number of a line has more digits.
    constexpr std::size_t most_digits = 6;
    std::size_t at = 0;
    number = 0;
    for (; at < text.size && at < most_digits && text.data[at] >= '0' && text.data[at] <= '9'; at++)
        number = 10 * number + (text.data[at] - std::uint32_t{'0'});
    if (at == 0 || at == text.size || text.data[at] != behind)
        return false;
    text = {text.data + at + 1, text.size - at - 1};
    return true;
}

// Takes a word and the tab behind it off a text.
template <std::size_t count> constexpr bool take_word(bytes &text, const char (&word)[count]) noexcept
{
    // The array has the word's NUL where the text has a tab.
    if (text.size < count || text.data[count - 1] != '\t')
        return false;
    for (std::size_t at = 0; at + 1 < count; at++)
        if (text.data[at] != static_cast<std::uint8_t>(word[at]))
            return false;
    text = {text.data + count, text.size - count};
    return true;
}

} // namespace detail

/*
 * Takes the first line off the lines of tidy, and tells what it says. It is false where the text does not begin with such a
 * line, and then nothing is taken: so it is behind the last line.
 */
[[nodiscard]] constexpr bool take_change(bytes &lines, change &first) noexcept
{
    bytes left = lines;
    change one;
    if (!detail::take_number(left, '\t', one.clause))
        return false;
    if (detail::take_word(left, "literal"))
        one.what = changed::literal;
    else if (detail::take_word(left, "tautology"))
        one.what = changed::tautology;
    else if (detail::take_word(left, "repeat"))
        one.what = changed::repeat;
    else
        return false;
    if (!detail::take_number(left, '\n', one.number))
        return false;
    lines = left;
    first = one;
    return true;
}

} // namespace simbolufa

#endif // C++17

#endif
