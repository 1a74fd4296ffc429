// Checks what simbolufa.hpp adds to simbolufa.h: its views, its answer, and the sizes of a conversion, of texts, of tables and
// of what tidying leaves.
// And the words for refused node files and p sat texts, as far as a host may ask for them.

#include <simbolufa.hpp>
// Twice, because a host's headers may each include it.
#include <simbolufa.hpp>
#include <simbolufa_node_file.h>
#include <simbolufa_sat_file.h>

#include <algorithm>
#include <array>
#include <cstddef>
#include <cstdint>
#include <cstdio>
#include <cstring>
#include <iterator>
#include <random>
#include <string>
#include <string_view>
#include <type_traits>
#include <vector>
#if __cplusplus >= 202002L
#include <span>
#endif

namespace {

using Bytes = std::vector<uint8_t>;

// Views are made of bytes alone, and room only of bytes that may be written.
static_assert(std::is_constructible_v<simbolufa::bytes, const Bytes &>);
static_assert(std::is_constructible_v<simbolufa::bytes, const std::array<uint8_t, 4> &>);
static_assert(std::is_constructible_v<simbolufa::bytes, const uint8_t (&)[4]>);
static_assert(std::is_constructible_v<simbolufa::bytes, simbolufa::room>);
static_assert(!std::is_constructible_v<simbolufa::bytes, const std::vector<int> &>);
static_assert(std::is_constructible_v<simbolufa::room, Bytes &>);
static_assert(std::is_constructible_v<simbolufa::room, uint8_t (&)[4]>);
static_assert(!std::is_constructible_v<simbolufa::room, const Bytes &>);
static_assert(!std::is_constructible_v<simbolufa::room, const uint8_t (&)[4]>);
static_assert(!std::is_constructible_v<simbolufa::room, simbolufa::bytes>);
// Text, and bytes by their own name.
static_assert(std::is_constructible_v<simbolufa::bytes, const std::string &>);
static_assert(std::is_constructible_v<simbolufa::bytes, std::string_view>);
static_assert(std::is_constructible_v<simbolufa::bytes, const char *, size_t>);
static_assert(std::is_constructible_v<simbolufa::bytes, const std::vector<std::byte> &>);
static_assert(std::is_constructible_v<simbolufa::bytes, const std::byte (&)[4]>);
static_assert(std::is_constructible_v<simbolufa::bytes, const std::byte *, size_t>);
static_assert(std::is_constructible_v<simbolufa::room, std::string &>);
static_assert(std::is_constructible_v<simbolufa::room, std::vector<std::byte> &>);
static_assert(std::is_constructible_v<simbolufa::room, std::array<std::byte, 4> &>);
static_assert(std::is_constructible_v<simbolufa::room, std::byte (&)[4]>);
static_assert(std::is_constructible_v<simbolufa::room, char *, size_t>);
static_assert(!std::is_constructible_v<simbolufa::room, const std::string &>);
static_assert(!std::is_constructible_v<simbolufa::room, std::string_view>);
static_assert(!std::is_constructible_v<simbolufa::room, const char *, size_t>);
static_assert(!std::is_constructible_v<simbolufa::room, std::vector<uint8_t>>);
static_assert(!std::is_constructible_v<simbolufa::bytes, const std::wstring &>);
static_assert(!std::is_constructible_v<simbolufa::bytes, const std::vector<bool> &>);
// A literal would bring its NUL.
static_assert(!std::is_constructible_v<simbolufa::bytes, const char (&)[4]>);
#if __cplusplus >= 202002L
static_assert(std::is_constructible_v<simbolufa::bytes, std::span<const uint8_t>>);
static_assert(std::is_constructible_v<simbolufa::bytes, std::span<std::byte>>);
static_assert(std::is_constructible_v<simbolufa::bytes, std::span<const char, 4>>);
static_assert(std::is_constructible_v<simbolufa::bytes, std::u8string_view>);
static_assert(std::is_constructible_v<simbolufa::room, std::span<uint8_t>>);
static_assert(std::is_constructible_v<simbolufa::room, std::span<uint8_t> &>);
static_assert(std::is_constructible_v<simbolufa::room, const std::span<uint8_t> &>);
static_assert(std::is_constructible_v<simbolufa::room, std::span<std::byte, 4>>);
static_assert(std::is_constructible_v<simbolufa::room, std::span<char>>);
static_assert(!std::is_constructible_v<simbolufa::room, std::span<const uint8_t>>);
static_assert(!std::is_constructible_v<simbolufa::room, std::span<int>>);
#endif
static_assert(noexcept(simbolufa::check({}, 0)) && noexcept(simbolufa::measure({}, 0, {})));
static_assert(noexcept(simbolufa::choose({}, 0, 0, {})) && noexcept(simbolufa::convert({}, 0, {}, {})));
static_assert(noexcept(simbolufa::write_dimacs({}, 0, {})) && noexcept(simbolufa::read_dimacs({}, {})));
static_assert(noexcept(simbolufa::text_bytes({}, 0)) && noexcept(simbolufa::convert_after({}, 0, 0, {}, {})));
static_assert(noexcept(simbolufa::together(0).convert({}, {}, {})) && simbolufa::together(7).variables() == 7);
static_assert(!std::is_convertible_v<uint32_t, simbolufa::together>);
static_assert(noexcept(simbolufa::origin({}, 0, {}, 0, {}, {}, {})));
static_assert(noexcept(simbolufa::origins({}, 0, {}, {}, {}, {})));
static_assert(noexcept(simbolufa::read_sat({}, {})) && simbolufa::longest_table == 5 * 1024);
static_assert(noexcept(simbolufa::tidy({}, 0, {}, {})) && std::is_trivially_copyable_v<simbolufa::change>);
static_assert(std::is_trivially_copyable_v<simbolufa::answer>);
static_assert(noexcept(simbolufa::answer{}.sentence()) && noexcept(simbolufa::answer{}.is_record()));
// An answer is asked, and is no number.
static_assert(std::is_constructible_v<bool, simbolufa::answer> && !std::is_convertible_v<simbolufa::answer, bool>);
static_assert(std::string_view(simbolufa::version()) == SIMBOLUFA_VERSION);

int checks = 0;
int wrong = 0;

void expect(const char *what, bool holds)
{
    checks++;
    if (holds)
        return;
    wrong++;
    std::printf("wrong: %s\n", what);
}

bool is(const simbolufa::answer &told, uint32_t number, uint32_t place, uint32_t first, uint32_t second)
{
    return told.accepted() == (number == 0) && told.accepted() == bool(told) && told.number == number &&
           told.place == place && told.first == first && told.second == second;
}

void append(Bytes &table, uint8_t kind, size_t a, size_t b)
{
    for (const size_t byte : {size_t{kind}, a & 255, a >> 8, b & 255, b >> 8})
        table.push_back(static_cast<uint8_t>(byte));
}

size_t last(const Bytes &table)
{
    return simbolufa::nodes_of(table) - 1;
}

// s1, then an or of the node before with itself so many times.
Bytes doubled_literals(int times)
{
    Bytes table = {2, 1, 0, 0, 0};
    for (int turn = 0; turn < times; turn++)
        append(table, 5, last(table), last(table));
    return table;
}

// 65,534 clauses, or one more.
Bytes many_clauses(bool more)
{
    Bytes table = {2, 1, 0, 0, 0};
    for (int turn = 0; turn < 14; turn++) {
        append(table, 4, last(table), last(table));
        append(table, 4, last(table), 0);
    }
    append(table, 4, last(table), last(table));
    if (more)
        append(table, 4, last(table), 0);
    return table;
}

// Whether needed_bytes refuses by the number, and convert says the same with all the room there is.
bool is_refused(const Bytes &table, uint32_t options, const Bytes &set, uint32_t number, uint32_t place)
{
    size_t needed = 1;
    Bytes room(5000000);
    return is(simbolufa::needed_bytes(table, options, set, needed), number, place, 0, 0) && needed == 0 &&
           is(simbolufa::convert(table, options, set, room), number, place, 0, 0);
}

// Whether needed_bytes gives the size, that room is enough, and one byte less is not.
bool is_sized(const Bytes &table, uint32_t clauses, uint32_t literals)
{
    const Bytes set(simbolufa::nodes_of(table));
    size_t needed = 0;
    if (!is(simbolufa::needed_bytes(table, 1, set, needed), 0, 0, clauses, literals))
        return false;
    Bytes room(needed);
    return needed == 4 * (size_t{clauses} + literals) && is(simbolufa::convert(table, 1, set, room), 0, 0, 1, clauses) &&
           is(simbolufa::convert(table, 1, set, {room.data(), needed - 1}), 7, 0, 0, 0);
}

// s1, s2, E = s1 equivalent s2, and the root: E equivalent E.
constexpr uint8_t table[] = {2, 1, 0, 0, 0, 2, 2, 0, 0, 0, 7, 0, 0, 1, 0, 7, 2, 0, 2, 0};
constexpr std::array<uint8_t, 4> none = {0, 0, 0, 0};
constexpr std::array<uint8_t, 4> renamed = {0, 0, 1, 0};
constexpr char text[] = "p cnf 3 6\n-3 3 0\n-3 3 0\n-3 -1 2 0\n-3 -2 1 0\n-1 -2 3 0\n1 2 3 0\n";

void check_calls()
{
    expect("nodes", simbolufa::nodes_of(table) == 4);
    expect("check", is(simbolufa::check(table, 2), 0, 0, 0, 0));
    expect("check of a pointer and a length", is(simbolufa::check({table, 15}, 2), 0, 0, 0, 0));
    expect("check of no table", is(simbolufa::check({}, 2), 1, 0, 0, 0));
    expect("check of too many options", is(simbolufa::check(table, 32001), 2, 0, 0, 0));
    expect("check of a wrong symbol", is(simbolufa::check(table, 1), 14, 1, 0, 0));
    expect("measure", is(simbolufa::measure(table, 2, none), 0, 0, 8, 32));
    expect("measure under a set", is(simbolufa::measure(table, 2, renamed), 0, 0, 6, 16));
    expect("measure without a set", is(simbolufa::measure(table, 2, {}), 4, 4, 0, 0));
    uint8_t set[4] = {9, 9, 9, 9};
    expect("choose", is(simbolufa::choose(table, 2, 1024, set), 0, 0, 1, 6));
    expect("the chosen set", std::equal(renamed.begin(), renamed.end(), set));
    Bytes longer(5, 9);
    expect("choose into another length", is(simbolufa::choose(table, 2, 1024, longer), 4, 4, 0, 0));
    expect("a refusal leaves the set", longer == Bytes(5, 9));
}

// What each number says, and which of them are about a record. The words are those of simbolufa.h.
void check_sentences()
{
    const std::array<std::string_view, 20> sentences = {
        "nothing is wrong",
        "the table is empty, is not a multiple of 5 bytes, or is over 5,120 bytes",
        "the option count is over 32,000, or what is taken is below it or over 32,000",
        "the kind is none of 0 to 7",
        "the set is not one byte 0 or 1 for each node, or has a 1 on a node that may not be renamed",
        "there are 65,535 clauses or more",
        "there are 1,000,000 literals or more",
        "the output needs more bytes than the buffer has",
        "the DIMACS text is not accepted",
        "the clause bytes break a rule of clause bytes, or the variables are over 40,000",
        "a line of the node file is wrong or missing, or the file is over 65,536 bytes",
        "the answer part is not 16 bytes",
        "a field that the kind does not use is not 0",
        "a child is not below its node",
        "a symbol is not one of 1 to V, the option count",
        "there is no clause of this number",
        "a list of names has a name too few or too many, an empty name, a tab, or no newline at its end",
        "the p sat text is not accepted",
        "the formula has more than 1,024 nodes",
        "there is no such number",
    };
    for (uint32_t number = 0; number < sentences.size(); number++) {
        const simbolufa::answer told{simbolufa_answer{number, 0, 0, 0}};
        expect("a sentence", sentences[number] == told.sentence() && sentences[number] == simbolufa_sentence(number));
        const bool is_record = number == 3 || (number >= 12 && number <= 14);
        expect("a record", told.is_record() == is_record && simbolufa_is_record_refusal(number) == int{is_record});
        const uint32_t line = is_record ? 9 : number == 10 ? 7 : number == 2 ? 1 : number == 1 ? 2 : 0;
        expect("a line", simbolufa_line_of(number, 7) == line);
    }
    expect("another number", simbolufa::answer{simbolufa_answer{UINT32_MAX, 0, 0, 0}}.sentence() == sentences[19]);
    const uint8_t capital[] = {'O', 'p', 't', 'i', 'o', 'n', 's', '\t', '2', '\n'};
    const std::string_view small = "the word options is not in small letters";
    expect("a node file", small == simbolufa_node_file_sentence(capital, sizeof capital, 10, 1));
    expect("no node file", std::string_view("the node file is empty") == simbolufa_node_file_sentence(nullptr, 0, 10, 1));
    expect("a former name", SIMBOLUFA_REFUSED_RECORD == SIMBOLUFA_REFUSED_KIND);
}

bool are_words(std::string_view words)
{
    return words.size() > 9 && words[0] >= 'a' && words[0] <= 'w' && words.back() != '.';
}

// Words for drawn texts, whatever number and place are asked of them. Each text has exactly its own memory, so that a
// sanitizer sees a byte that is read outside of it.
void check_node_files()
{
    constexpr std::string_view right = "options\t2\n0\t2\t1\t0\n1\t3\t0\t0\n2\t4\t0\t1\n";
    constexpr std::string_view drawn = "\t\t\n\n\r #;/*-+0019OopsxX\xEF\xBB\xBF\xFF\xFE";
    std::mt19937 random(2);
    for (int turn = 0; turn < 2000; turn++) {
        std::string made(right.substr(0, random() % (right.size() + 1)));
        for (size_t times = random() % 4; times > 0; times--)
            made.insert(random() % (made.size() + 1), 1, drawn[random() % drawn.size()]);
        const Bytes file(made.begin(), made.end());
        bool holds = true;
        for (uint32_t number = 0; number < 20; number++)
            for (const uint32_t place : {0u, 1u, 2u, 3u, 4u, 5u, 1026u, UINT32_MAX})
                holds = holds && are_words(simbolufa_node_file_sentence(file.data(), file.size(), number, place));
        expect("words for a drawn text", holds);
    }
}

// The same for p sat texts, at the place where the library refuses each and at all others.
void check_sat_files()
{
    constexpr std::string_view right = "c two\np sat 12\n*(+(1 -12)\n -(*(3 4)) (5)\t+() )\n";
    constexpr std::string_view drawn = "  \n\r\tcpsat()()*+-0012x\xEF";
    std::mt19937 random(3);
    int refused = 0;
    for (int turn = 0; turn < 2000; turn++) {
        std::string made(right.substr(0, turn % 3 == 0 ? random() % (right.size() + 1) : right.size()));
        for (size_t times = random() % 4; times > 0; times--)
            if (random() % 2 == 0)
                made.insert(random() % (made.size() + 1), 1, drawn[random() % drawn.size()]);
            else
                made.erase(random() % (made.size() + 1), 1);
        const Bytes file(made.begin(), made.end());
        Bytes nodes;
        const simbolufa::answer told = simbolufa::sat_table(file, nodes);
        const std::string_view words = simbolufa_sat_sentence(file.data(), file.size(), told.number, told.place);
        refused += told ? 0 : 1;
        bool holds = are_words(words) && (words == told.sentence()) == told.accepted() && told.place <= file.size();
        for (uint32_t place = 0; place < file.size() + 3; place++)
            holds = holds && are_words(simbolufa_sat_sentence(file.data(), file.size(), 17, place));
        const auto at = simbolufa_position_of(file.data(), file.size(), told.place);
        const std::string_view before(made.data(), told.place);
        const auto line = static_cast<size_t>(std::count(before.begin(), before.end(), '\n')) + 1;
        const size_t start = before.rfind('\n') == std::string_view::npos ? 0 : before.rfind('\n') + 1;
        expect("words for a drawn p sat text", holds && at.line == line && at.column == told.place - start + 1);
    }
    expect("refused p sat texts", refused > 500 && refused < 1900);
    expect("the words for another number", simbolufa_sat_sentence(nullptr, 0, 18, 0) == simbolufa_sentence(18));
    expect("no text", std::string_view(simbolufa_sat_sentence(nullptr, 0, 17, 0)).substr(0, 13) == "the text ends");
    expect("a place behind the text", simbolufa_sat_sentence(nullptr, 0, 17, 1) == simbolufa_sentence(17));
    expect("the highest place", simbolufa_sat_sentence(nullptr, 0, 17, UINT32_MAX) == simbolufa_sentence(17));
}

// What a text is by its first lines.
void check_first_lines()
{
    const std::array<std::string_view, 6> sat = {"p ", "p\t", "p cnf 1 1\n", "c\np sat", "cp\ncp\np x", "c \r\np "};
    const std::array<std::string_view, 10> other = {"",     "c",          "p",      "c\n",   "p\n",
                                                    "psat", "c\n\np sat", " p sat", "P sat", "options\t1"};
    for (const std::string_view one : sat)
        expect("a p sat text", simbolufa_is_sat_text(simbolufa::bytes(one).data, one.size()) == 1);
    for (const std::string_view one : other)
        expect("no p sat text", simbolufa_is_sat_text(simbolufa::bytes(one).data, one.size()) == 0);
    expect("a cut text", simbolufa_is_sat_text(simbolufa::bytes(sat[0]).data, 1) == 0);
}

void check_sizes()
{
    size_t needed = 0;
    expect("needed bytes", is(simbolufa::needed_bytes(table, 2, renamed, needed), 0, 0, 6, 16) && needed == 88);
    Bytes clauses(needed);
    expect("convert into them", is(simbolufa::convert(table, 2, renamed, clauses), 0, 0, 3, 6));
    Bytes small(needed - 1, 9);
    expect("convert into one less", is(simbolufa::convert(table, 2, renamed, small), 7, 0, 0, 0));
    expect("a refusal leaves the room", small == Bytes(needed - 1, 9));
    const Bytes truth = {1, 0, 0, 0, 0};
    expect("no clause", is(simbolufa::needed_bytes(truth, 0, Bytes(1), needed), 0, 0, 0, 0) && needed == 0);
    expect("no byte", is(simbolufa::convert(truth, 0, Bytes(1), {}), 0, 0, 0, 0));
    expect("524,288 literals", is_sized(doubled_literals(19), 1, 524288));
    expect("65,534 clauses", is_sized(many_clauses(false), 65534, 65534));
    expect("too many literals", is_refused(doubled_literals(20), 1, Bytes(21), 6, 0));
    expect("too many clauses", is_refused(many_clauses(true), 1, Bytes(31), 5, 0));
    expect("no table", is_refused({}, 1, {}, 1, 0));
    expect("too many options", is_refused(doubled_literals(1), 32001, Bytes(2), 2, 0));
    expect("a wrong kind", is_refused({8, 0, 0, 0, 0}, 0, Bytes(1), 3, 0));
    expect("an unused field", is_refused({1, 0, 0, 1, 0}, 0, Bytes(1), 12, 0));
    expect("a wrong child", is_refused({3, 0, 0, 0, 0}, 0, Bytes(1), 13, 0));
    expect("a wrong symbol", is_refused(doubled_literals(1), 0, Bytes(2), 14, 0));
    expect("a wrong set", is_refused(doubled_literals(1), 1, Bytes{0, 1}, 4, 1));
}

void check_texts()
{
    Bytes clauses(88);
    expect("convert", is(simbolufa::convert(table, 2, renamed, clauses), 0, 0, 3, 6));
    expect("the text's length", simbolufa::text_bytes(clauses, 3) == sizeof text - 1);
    std::string written(simbolufa::text_bytes(clauses, 3), ' ');
    expect("write", is(simbolufa::write_dimacs(clauses, 3, written), 0, 0, 3, 6));
    expect("the text", written == text);
    expect("write without room", is(simbolufa::write_dimacs(clauses, 3, {}), 7, 0, 0, 0));
    expect("write with too few variables", is(simbolufa::write_dimacs(clauses, 2, written), 9, 0, 0, 0));
    Bytes again(88);
    expect("read", is(simbolufa::read_dimacs(written, again), 0, 0, 3, 6) && again == clauses);
    expect("read without room", is(simbolufa::read_dimacs(written, {}), 7, 0, 0, 0));
    written[0] = 'q';
    expect("read a wrong text", is(simbolufa::read_dimacs(written, again), 8, 0, 0, 0));
}

// p sat texts, and the tables that are made of them.
void check_sat()
{
    constexpr std::string_view sat = "c E is 1, F is 2\np sat 9\n*(1 -2\n 1)\n";
    const Bytes nodes = {2, 1, 0, 0, 0, 2, 2, 0, 0, 0, 3, 1, 0, 0, 0, 4, 0, 0, 2, 0, 2, 1, 0, 0, 0, 4, 3, 0, 4, 0};
    Bytes made(40, 7);
    expect("read a p sat text", is(simbolufa::read_sat(sat, made), 0, 0, 9, 6));
    Bytes longer = nodes;
    longer.resize(40, 7);
    expect("its table and the bytes behind it", made == longer);
    expect("in its own length", is(simbolufa::read_sat(sat, {made.data(), 30}), 0, 0, 9, 6));
    made.assign(29, 7);
    expect("in one byte less", is(simbolufa::read_sat(sat, made), 7, 0, 0, 0) && made == Bytes(29, 7));
    expect("without room", is(simbolufa::read_sat(sat, {}), 7, 0, 0, 0));
    expect("no text", is(simbolufa::read_sat({}, {}), 17, 0, 0, 0));
    expect("a table of its own length", is(simbolufa::sat_table(sat, made), 0, 0, 9, 6) && made == nodes);
    std::vector<std::byte> bytes(7000);
    expect("a table of bytes", is(simbolufa::sat_table(sat, bytes), 0, 0, 9, 6) && bytes.size() == nodes.size() &&
                                   std::memcmp(bytes.data(), nodes.data(), nodes.size()) == 0);
    expect("a refusal leaves no table", is(simbolufa::sat_table(sat.substr(1), made), 17, 0, 0, 0) && made.empty());
    expect("a text that ends", is(simbolufa::sat_table(sat.substr(0, 30), made), 17, 30, 0, 0));
    expect("the byte that is wrong", is(simbolufa::sat_table(std::string(sat) + "(", made), 17, sat.size(), 0, 0));

    // The table goes on to be converted, with the V that is told.
    const simbolufa::answer told = simbolufa::sat_table(sat, made);
    Bytes set(simbolufa::nodes_of(made), 9);
    Bytes clauses(24);
    expect("check it", told && is(simbolufa::check(made, told.first), 0, 0, 0, 0));
    expect("choose for it", is(simbolufa::choose(made, told.first, 1024, set), 0, 0, 0, 3));
    expect("convert it", is(simbolufa::convert(made, told.first, set, clauses), 0, 0, 9, 3));

    // 1,024 nodes fill the largest table, and one more is refused.
    std::string list = "p sat 1\n*(-1";
    for (int member = 1; member < 512; member++)
        list += " 1";
    expect("1,024 nodes", is(simbolufa::sat_table(list + ")", made), 0, 0, 1, 1024) && made.size() == 5120);
    expect("a node more", is(simbolufa::sat_table(list + " 1)", made), 18, 0, 0, 0) && made.empty());
    expect("the text comes first", is(simbolufa::read_sat(list + " 1", {}), 17, 1036, 0, 0));
    expect("then the nodes", is(simbolufa::read_sat(list + " 1)", {}), 18, 0, 0, 0));
    uint8_t part[SIMBOLUFA_ANSWER_LENGTH + 1] = {};
    const simbolufa::bytes lent(sat);
    expect("the answer part before all", simbolufa_read_sat(nullptr, 0, nullptr, 0, part, sizeof part) == 11 &&
                                             simbolufa_read_sat(lent.data, lent.size, nullptr, 0, part, 15) == 11 &&
                                             std::count(std::begin(part), std::end(part), 0) == sizeof part);
}

// Views of bytes that are called something else.
void check_views()
{
    constexpr size_t length = 88;
    std::array<std::byte, length> clauses;
    expect("convert into bytes", is(simbolufa::convert(table, 2, renamed, clauses), 0, 0, 3, 6));
    std::vector<std::byte> written(simbolufa::text_bytes(clauses, 3));
    expect("write bytes", is(simbolufa::write_dimacs(clauses, 3, written), 0, 0, 3, 6));
    expect("the bytes", std::memcmp(written.data(), text, written.size()) == 0);
    std::byte again[length];
    expect("read a string", is(simbolufa::read_dimacs(std::string(text), again), 0, 0, 3, 6));
    expect("read a view", is(simbolufa::read_dimacs(std::string_view(text), again), 0, 0, 3, 6));
    expect("read a pointer", is(simbolufa::read_dimacs({text, sizeof text - 1}, again), 0, 0, 3, 6));
    expect("the clauses", std::equal(clauses.begin(), clauses.end(), again));
    // With its NUL a literal is no text.
    expect("read a text and its NUL", is(simbolufa::read_dimacs({text, sizeof text}, again), 8, sizeof text - 1, 0, 0));
#if __cplusplus >= 202002L
    const std::span<std::byte> part(again);
    expect("into a span", is(simbolufa::read_dimacs(std::string_view(text), part), 0, 0, 3, 6));
    const auto less = part.first(length - 1);
    expect("into a part", is(simbolufa::read_dimacs(std::string_view(text), less), 7, 0, 0, 0));
#endif
}

Bytes words(const std::vector<int32_t> &numbers)
{
    Bytes bytes;
    for (const int32_t number : numbers)
        for (const int shift : {0, 8, 16, 24})
            bytes.push_back(static_cast<uint8_t>(static_cast<uint32_t>(number) >> shift & 255));
    return bytes;
}

// Whether text_bytes tells the length that write_dimacs needs, or 0 where it refuses. All bytes of that room are written,
// no other is, and one byte less is refused.
bool is_told(const Bytes &clauses, uint32_t variables)
{
    const size_t length = simbolufa::text_bytes(clauses, variables);
    std::string room(length + 8, '#');
    const simbolufa::answer told = simbolufa::write_dimacs(clauses, variables, {room.data(), length});
    if (length == 0)
        return is(told, 9, 0, 0, 0);
    const bool is_whole = room.find('#') == length && room[length - 1] == '\n';
    std::string less(length - 1, '#');
    return told && is_whole && is(simbolufa::write_dimacs(clauses, variables, less), 7, 0, 0, 0) &&
           less == std::string(length - 1, '#');
}

void check_text_sizes()
{
    const int32_t least = INT32_MIN;
    const std::vector<std::vector<int32_t>> cases = {
        {}, {0}, {0, 0}, {1}, {1, 0}, {-1, 0}, {1, 0, 2}, {0, 1}, {1, 0, 0}, {9, 10, 0}, {-9, -10, 99, 100, -100, 0},
        {999, 1000, -9999, 10000, 0}, {40000, 0}, {-40000, 0}, {40001, 0}, {-40001, 0}, {least, 0}, {INT32_MAX, 0},
        {-INT32_MAX, 0},
    };
    for (const std::vector<int32_t> &numbers : cases)
        for (const uint32_t variables : {0u, 1u, 2u, 9u, 10u, 100u, 9999u, 10000u, 39999u, 40000u, 40001u, UINT32_MAX})
            expect("the length of a text", is_told(words(numbers), variables));
    Bytes odd = words({1, 0});
    odd.pop_back();
    expect("no whole number", simbolufa::text_bytes(odd, 1) == 0 && is_told(odd, 1));
    for (const size_t count : {9u, 10u, 99u, 100u, 9999u, 10000u, 65534u, 65535u, 65536u})
        expect("many clauses", is_told(Bytes(4 * count), 1));
    for (const size_t count : {999999u, 1000000u}) {
        std::vector<int32_t> numbers(count, -1);
        numbers.push_back(0);
        expect("many literals", is_told(words(numbers), 1));
    }
    expect("the largest", simbolufa::text_bytes(Bytes(4 * size_t{65534}), 40000) == 18 + 2 * size_t{65534});
    std::mt19937 random(1);
    for (int turn = 0; turn < 2000; turn++) {
        std::vector<int32_t> numbers(random() % 40);
        for (int32_t &number : numbers)
            number = static_cast<int32_t>(random() % 12001) - 6000;
        for (int32_t &number : numbers)
            number = random() % 4 == 0 ? 0 : number;
        if (turn % 8 != 0)
            numbers.push_back(0);
        const auto variables = static_cast<uint32_t>(turn % 16 == 1 ? 5999 : 6000 + random() % 34002);
        expect("the length of a drawn text", is_told(words(numbers), variables));
    }
}

// The variables that a guard's clauses have beside those that are options of both.
std::vector<int32_t> helpers_of(const Bytes &clauses, int32_t options)
{
    std::vector<int32_t> helpers;
    for (size_t at = 0; at < clauses.size(); at += 4) {
        const auto literal = static_cast<int32_t>(simbolufa_read_number(clauses.data() + at));
        const int32_t variable = literal < 0 ? -literal : literal;
        if (variable > options && std::find(helpers.begin(), helpers.end(), variable) == helpers.end())
            helpers.push_back(variable);
    }
    return helpers;
}

void check_convert_after()
{
    Bytes plain(88);
    Bytes after(88);
    expect("convert", is(simbolufa::convert(table, 2, renamed, plain), 0, 0, 3, 6));
    expect("nothing is taken but the options", is(simbolufa::convert_after(table, 2, 2, renamed, after), 0, 0, 3, 6));
    expect("the same bytes", after == plain);
    expect("more is taken", is(simbolufa::convert_after(table, 2, 7, renamed, after), 0, 0, 8, 6));
    expect("its helper", helpers_of(after, 2) == std::vector<int32_t>{8} && after != plain);
    size_t needed = 0;
    expect("the same room", is(simbolufa::needed_bytes(table, 2, renamed, needed), 0, 0, 6, 16) && needed == 88);
    expect("one byte less", is(simbolufa::convert_after(table, 2, 7, renamed, {after.data(), 87}), 7, 0, 0, 0));
    expect("the most that is taken", is(simbolufa::convert_after(table, 2, 32000, renamed, after), 0, 0, 32001, 6));
    expect("more than that", is(simbolufa::convert_after(table, 2, 32001, renamed, after), 2, 0, 0, 0));
    expect("less than the options", is(simbolufa::convert_after(table, 2, 1, renamed, after), 2, 0, 0, 0));
    expect("a symbol that is taken", is(simbolufa::convert_after(table, 1, 2, renamed, after), 14, 1, 0, 0));
    expect("the record comes first", is(simbolufa::convert_after(table, 1, 0, renamed, after), 14, 1, 0, 0));
    expect("the set comes after", is(simbolufa::convert_after(table, 2, 1, {}, after), 2, 0, 0, 0));
    expect("no set", is(simbolufa::convert_after(table, 2, 2, {}, after), 4, 4, 0, 0));
}

void check_together()
{
    simbolufa::together guards(2);
    expect("the options at first", guards.variables() == 2);
    Bytes first(88);
    Bytes second(88);
    expect("the first guard", is(guards.convert(table, renamed, first), 0, 0, 3, 6) && guards.variables() == 3);
    expect("the second guard", is(guards.convert(table, renamed, second), 0, 0, 4, 6) && guards.variables() == 4);
    expect("no helper is in both", helpers_of(first, 2) == std::vector<int32_t>{3} &&
                                       helpers_of(second, 2) == std::vector<int32_t>{4});
    // By mistake this guard names symbol 3, which is the first guard's helper.
    const Bytes mistaken = {2, 1, 0, 0, 0, 2, 3, 0, 0, 0, 4, 0, 0, 1, 0};
    const Bytes before = second;
    expect("a helper as a symbol", is(guards.convert(mistaken, Bytes(3), second), 14, 1, 0, 0));
    expect("a refusal takes nothing", guards.variables() == 4 && second == before);
    expect("no room takes nothing", is(guards.convert(table, renamed, {}), 7, 0, 0, 0) && guards.variables() == 4);
    Bytes whole(160);
    expect("nothing renamed takes nothing", is(guards.convert(table, none, whole), 0, 0, 4, 8) && guards.variables() == 4);
    expect("the third guard", is(guards.convert(table, renamed, second), 0, 0, 5, 6) && guards.variables() == 5);

    simbolufa::together full(32000);
    expect("the most options and a helper", is(full.convert(table, renamed, first), 0, 0, 32001, 6));
    expect("no second guard after that", is(full.convert(table, renamed, second), 2, 0, 0, 0));
    expect("what was taken stays", full.variables() == 32001);
    simbolufa::together none_right(32001);
    expect("too many options", is(none_right.convert(table, renamed, second), 2, 0, 0, 0));
}

// The lines of the table above with node 2 renamed, one for each clause.
constexpr std::string_view option_names = "JPEG\nHDR\n";
constexpr std::string_view helper_names = "E\n";
const std::array<std::string, 6> origin_of = {
    "0\t3\t0\troot\t0\t!E\tE\n",          "1\t3\t0\troot\t1\t!E\tE\n",        "2\t2\t3\tdown\t0\t!E\t!JPEG\tHDR\n",
    "3\t2\t3\tdown\t1\t!E\t!HDR\tJPEG\n", "4\t2\t3\tup\t0\t!JPEG\t!HDR\tE\n", "5\t2\t3\tup\t1\tJPEG\tHDR\tE\n",
};

void check_origins()
{
    std::string all;
    for (uint32_t clause = 0; clause < origin_of.size(); clause++) {
        const std::string &expected = origin_of[clause];
        all += expected;
        std::string line(expected.size() + 3, '#');
        expect("the origin of a clause",
               is(simbolufa::origin(table, 2, renamed, clause, option_names, helper_names, line), 0, 0, 3, 6) &&
                   line == expected + "###");
        line.assign(expected.size() - 1, '#');
        expect("a line in one byte less",
               is(simbolufa::origin(table, 2, renamed, clause, option_names, helper_names, line), 7, 0, 0, 0) &&
                   line == std::string(expected.size() - 1, '#'));
        expect("a line of its own length",
               is(simbolufa::origin_line(table, 2, renamed, clause, option_names, helper_names, line), 0, 0, 3, 6) &&
                   line == expected);
    }
    std::string lines(all.size() + 1, '#');
    expect("all origins", is(simbolufa::origins(table, 2, renamed, option_names, helper_names, lines), 0, 0, 3, 6) &&
                              lines == all + "#");
    lines.resize(all.size() - 1);
    expect("all in one byte less",
           is(simbolufa::origins(table, 2, renamed, option_names, helper_names, lines), 7, 0, 0, 0));
    expect("lines of their own length",
           is(simbolufa::origin_lines(table, 2, renamed, option_names, helper_names, lines), 0, 0, 3, 6) &&
               lines == all);
    // What was there before plays no part, and bytes may be called something else.
    std::vector<std::byte> bytes(5000, std::byte{'\n'});
    expect("lines as bytes",
           is(simbolufa::origin_lines(table, 2, renamed, option_names, helper_names, bytes), 0, 0, 3, 6) &&
               bytes.size() == all.size() && std::memcmp(bytes.data(), all.data(), all.size()) == 0);
    Bytes line(1, '\n');
    expect("a line as numbers",
           is(simbolufa::origin_line(table, 2, renamed, 5, option_names, helper_names, line), 0, 0, 3, 6) &&
               std::string(line.begin(), line.end()) == origin_of[5]);
}

void check_refused_origins()
{
    std::string told = "something";
    const uint32_t most = UINT32_MAX;
    expect("no such clause",
           is(simbolufa::origin_line(table, 2, renamed, 6, option_names, helper_names, told), 15, 6, 0, 0));
    expect("no text", told.empty());
    expect("the largest number", is(simbolufa::origin(table, 2, renamed, most, {}, {}, {}), 15, most, 0, 0));
    for (const std::string_view names : {"JPEG\n", "JPEG\nHDR\nPNG\n", "JPEG\nHDR", "\nHDR\n", "JPEG\nHD\tR\n", ""}) {
        told = "something";
        expect("wrong names of options",
               is(simbolufa::origin_line(table, 2, renamed, 0, names, helper_names, told), 16, 0, 0, 0) &&
                   told.empty());
        expect("wrong names for all", is(simbolufa::origins(table, 2, renamed, names, helper_names, {}), 16, 0, 0, 0));
    }
    for (const std::string_view names : {"", "E", "E\nF\n", "\n", "\t\n", "E\n\n"}) {
        told = "something";
        expect("wrong names of helpers",
               is(simbolufa::origin_lines(table, 2, renamed, option_names, names, told), 16, 0, 0, 0) && told.empty());
    }
    expect("a wrong table", is(simbolufa::origin_lines({}, 2, renamed, option_names, helper_names, told), 1, 0, 0, 0));
    expect("a wrong symbol",
           is(simbolufa::origin_lines(table, 1, renamed, option_names, helper_names, told), 14, 1, 0, 0));
    expect("a wrong set", is(simbolufa::origin_line(table, 2, {}, 0, option_names, helper_names, told), 4, 4, 0, 0));
    expect("too many clauses", is(simbolufa::origin_lines(many_clauses(true), 1, Bytes(31), {}, {}, told), 5, 0, 0, 0));
    expect("too many literals",
           is(simbolufa::origin_lines(doubled_literals(20), 1, Bytes(21), {}, {}, told), 6, 0, 0, 0));
}

// Texts of all lengths, for which room is made.
void check_long_origins()
{
    const std::string_view x = "x\n";
    std::string told = "something";
    // 1,023 nots above the last option, all but the root renamed: lines of the largest node and helper numbers.
    Bytes nots = {2, 0, 125, 0, 0};
    for (int turn = 0; turn < 1023; turn++)
        append(nots, 3, last(nots), 0);
    Bytes all(1024, 1);
    all.front() = 0;
    all.back() = 0;
    std::string options;
    for (int option = 0; option < 32000; option++)
        options += x;
    std::string helpers;
    for (int helper = 0; helper < 1022; helper++)
        helpers += x;
    const simbolufa::answer totals = simbolufa::measure(nots, 32000, all);
    std::string lines(28 * size_t{totals.first} + 3 * size_t{totals.second}, '#');
    expect("the room that simbolufa.h says",
           totals && is(simbolufa::origins(nots, 32000, all, options, helpers, lines), 0, 0, 33022, totals.first));
    expect("1,023 lines", is(simbolufa::origin_lines(nots, 32000, all, options, helpers, told), 0, 0, 33022, 1023) &&
                              lines.compare(0, told.size(), told) == 0);
    const Bytes truth = {1, 0, 0, 0, 0};
    expect("no clause", is(simbolufa::origin_lines(truth, 0, Bytes(1), {}, {}, told), 0, 0, 0, 0) && told.empty());
    const Bytes falsehood = {0, 0, 0, 0, 0};
    expect("an empty clause", is(simbolufa::origin_lines(falsehood, 0, Bytes(1), {}, {}, told), 0, 0, 0, 1) &&
                                  told == "0\t0\t0\troot\t0\n");
    expect("65,534 lines", is(simbolufa::origin_lines(many_clauses(false), 1, Bytes(30), x, {}, told), 0, 0, 1, 65534));
    expect("as many newlines", std::count(told.begin(), told.end(), '\n') == 65534);
    const std::string_view end = "\n65533\t29\t0\troot\t65533\tx\n";
    expect("the last line", told.size() > end.size() && told.substr(told.size() - end.size()) == end);
    expect("its line alone",
           is(simbolufa::origin_line(many_clauses(false), 1, Bytes(30), 65533, x, {}, told), 0, 0, 1, 65534) &&
               told == end.substr(1));
    expect("524,288 literals",
           is(simbolufa::origin_line(doubled_literals(19), 1, Bytes(20), 0, x, {}, told), 0, 0, 1, 1) &&
               told.size() == 14 + 2 * size_t{524288});
    for (const size_t length : {1u, 29u, 30u, 31u, 200u, 255u, 256u, 257u, 10000u, 1000000u}) {
        const std::string name(length, 'n');
        std::string again;
        const bool is_line =
            bool(simbolufa::origin_line(table, 2, renamed, 5, "JPEG\n" + name + "\n", helper_names, told));
        expect("a long name", is_line && told == "5\t2\t3\tup\t1\tJPEG\t" + name + "\tE\n");
        const bool has_lines = bool(simbolufa::origin_lines(table, 2, renamed, option_names, name + "\n", again));
        expect("a long name in all lines", has_lines && again.size() == 134 + 8 * (length - 1));
    }
    std::string many;
    for (int option = 1; option <= 32000; option++)
        many += "o" + std::to_string(option) + "\n";
    const Bytes highest = {2, 0, 125, 0, 0};
    expect("the last of 32,000 options",
           is(simbolufa::origin_line(highest, 32000, Bytes(1), 0, many, {}, told), 0, 0, 32000, 1) &&
               told == "0\t0\t0\troot\t0\to32000\n");
    expect("one option more",
           is(simbolufa::origin_line(highest, 32000, Bytes(1), 0, many + "o\n", {}, told), 16, 0, 0, 0));
}

// The clauses of the table above with node 2 renamed and two more, as in simbolufa.h, with what is left of them and what is told.
const Bytes untidy = words({-3, 3, 0, -3, 3, 0, -3, -1, 2, 0, -3, -2, 1, 0, -1, -2,
                            3,  0, 1, 2,  3, 0, 3,  -1, 3, -2, 0, 2, 1, 2, 0});
const Bytes tidy_clauses = words({-3, -1, 2, 0, -3, -2, 1, 0, -1, -2, 3, 0, 1, 2, 3, 0, 2, 1, 0});
constexpr std::string_view changes = "0\ttautology\t0\n1\ttautology\t0\n6\trepeat\t4\n7\tliteral\t2\n";

void check_tidy()
{
    Bytes kept(tidy_clauses.size() + 4, 9);
    std::string lines(changes.size() + 2, '#');
    expect("tidy", is(simbolufa::tidy(untidy, 3, kept, lines), 0, 0, 4, 5));
    Bytes behind = tidy_clauses;
    behind.resize(kept.size(), 9);
    expect("what is kept, and the bytes behind it", kept == behind);
    expect("the lines, and the bytes behind them", lines == std::string(changes) + "##");
    // Either room is one byte short.
    for (const size_t less : {1u, 2u, 3u}) {
        kept.assign(tidy_clauses.size() - less % 2, 9);
        lines.assign(changes.size() - less / 2, '#');
        expect("one byte less", is(simbolufa::tidy(untidy, 3, kept, lines), 7, 0, 0, 0));
        expect("neither is changed", kept == Bytes(kept.size(), 9) && lines == std::string(lines.size(), '#'));
    }
    expect("no room", is(simbolufa::tidy(untidy, 3, {}, {}), 7, 0, 0, 0));
    expect("no clause", is(simbolufa::tidy({}, 3, {}, {}), 0, 0, 0, 0));
    expect("too few variables", is(simbolufa::tidy(untidy, 2, kept, lines), 9, 0, 0, 0));
    expect("too many variables", is(simbolufa::tidy({}, 40001, {}, {}), 9, 0, 0, 0));
    uint8_t part[SIMBOLUFA_ANSWER_LENGTH + 1] = {};
    expect("the answer part before all",
           simbolufa_tidy(nullptr, 0, 40001, nullptr, 0, nullptr, 0, part, sizeof part) == 11 &&
               simbolufa_tidy(untidy.data(), 3, 3, kept.data(), kept.size(), nullptr, 0, part, 15) == 11 &&
               std::count(std::begin(part), std::end(part), 0) == sizeof part);

    // Into containers of any kind. What they held before plays no part.
    expect("tidied", is(simbolufa::tidied(untidy, 3, kept, lines), 0, 0, 4, 5) && kept == tidy_clauses && lines == changes);
    std::vector<std::byte> bytes(7000, std::byte{1});
    Bytes numbers;
    expect("tidied into bytes", is(simbolufa::tidied(untidy, 3, bytes, numbers), 0, 0, 4, 5) &&
                                    bytes.size() == tidy_clauses.size() &&
                                    std::memcmp(bytes.data(), tidy_clauses.data(), bytes.size()) == 0 &&
                                    std::string(numbers.begin(), numbers.end()) == changes);
    expect("a wrong literal", is(simbolufa::tidied(untidy, 2, kept, lines), 9, 0, 0, 0));
    expect("a refusal leaves nothing", kept.empty() && lines.empty());
    kept = Bytes(9);
    expect("no clause at all", is(simbolufa::tidied({}, 0, kept, lines), 0, 0, 0, 0) && kept.empty() && lines.empty());
    expect("an empty clause", is(simbolufa::tidied(words({0, 0}), 0, kept, lines), 0, 0, 1, 1) && kept == words({0}));
    expect("nothing goes", is(simbolufa::tidied(tidy_clauses, 3, kept, lines), 0, 0, 0, 5));
    expect("all is kept", kept == tidy_clauses && lines.empty());
    std::string written(simbolufa::text_bytes(kept, 3), ' ');
    expect("what is kept is written", is(simbolufa::write_dimacs(kept, 3, written), 0, 0, 3, 5) &&
                                          written == "p cnf 3 5\n-3 -1 2 0\n-3 -2 1 0\n-1 -2 3 0\n1 2 3 0\n2 1 0\n");
}

// Lines of all lengths, for which room is made: never more than 21 bytes for every four of the clauses.
void check_long_tidy()
{
    Bytes kept;
    std::string lines;
    const Bytes empty(4 * size_t{65534});
    expect("65,533 repeats", is(simbolufa::tidied(empty, 0, kept, lines), 0, 0, 65533, 1) && kept == words({0}));
    const std::string_view last = "\n65533\trepeat\t0\n";
    expect("the last of them", lines.substr(lines.size() - last.size()) == last && lines.size() <= 21 * empty.size() / 4);
    std::vector<int32_t> same(999999, -40000);
    same.push_back(0);
    const Bytes most = words(same);
    expect("999,998 literals", is(simbolufa::tidied(most, 40000, kept, lines), 0, 0, 999998, 1) && kept == words({-40000, 0}));
    const std::string_view end = "\n0\tliteral\t999998\n";
    expect("the last of these", lines.substr(lines.size() - end.size()) == end && lines.size() <= 21 * most.size() / 4);
    // The longest lines: the last clauses have all literals.
    std::vector<int32_t> longest(65533);
    longest.insert(longest.end(), same.begin(), same.end());
    const Bytes both = words(longest);
    expect("the longest lines", is(simbolufa::tidied(both, 40000, kept, lines), 0, 0, 65532 + 999998, 2) &&
                                    kept == words({0, -40000, 0}) && lines.size() <= 21 * both.size() / 4);
    expect("one clause more", is(simbolufa::tidied(Bytes(4 * size_t{65535}), 0, kept, lines), 9, 0, 0, 0));
}

bool is(const simbolufa::change &one, uint32_t clause, simbolufa::changed what, uint32_t number)
{
    return one.clause == clause && one.what == what && one.number == number;
}

const char *word_of(simbolufa::changed what)
{
    switch (what) {
    case simbolufa::changed::literal:
        return "\tliteral\t";
    case simbolufa::changed::tautology:
        return "\ttautology\t";
    case simbolufa::changed::repeat:
        return "\trepeat\t";
    }
    return "";
}

// Lines, taken one by one.
void check_changes()
{
    using simbolufa::changed;
    simbolufa::bytes left = changes;
    simbolufa::change one;
    expect("the first line", simbolufa::take_change(left, one) && is(one, 0, changed::tautology, 0));
    expect("the second", simbolufa::take_change(left, one) && is(one, 1, changed::tautology, 0));
    expect("the third", simbolufa::take_change(left, one) && is(one, 6, changed::repeat, 4));
    expect("the last", simbolufa::take_change(left, one) && is(one, 7, changed::literal, 2) && left.size == 0);
    expect("none behind it", !simbolufa::take_change(left, one) && left.size == 0 && is(one, 7, changed::literal, 2));
    expect("the largest", simbolufa::take_change(left = std::string_view("65533\tliteral\t999998\n"), one) &&
                              is(one, 65533, changed::literal, 999998));
    for (const std::string_view other :
         {"0\tliteral\t1", "0\tliteral\t\n", "\tliteral\t1\n", "0 literal 1\n", "0\tliterals\t1\n", "0\tlitera\t1\n",
          "0\tLiteral\t1\n", "0\tliteral\t1\t\n", "-1\trepeat\t0\n", "0\trepeat\t-1\n", "1000000\trepeat\t0\n", "0\t\t0\n", "0",
          "0\t", "0\trepeat", "0\trepeat\t", "0\trepeat\t0\r\n", "\n", "repeat\n"}) {
        left = other;
        expect("no line", !simbolufa::take_change(left, one) && left.size == other.size());
    }
    // Each line of drawn clauses is told, and comes back as it was.
    std::mt19937 random(4);
    for (int turn = 0; turn < 500; turn++) {
        std::vector<int32_t> drawn;
        for (size_t count = random() % 60; count > 0; count--)
            drawn.push_back(static_cast<int32_t>(random() % 7) - 3);
        drawn.push_back(0);
        Bytes kept;
        std::string lines;
        const simbolufa::answer told = simbolufa::tidied(words(drawn), 3, kept, lines);
        std::string again;
        uint32_t count = 0;
        for (left = lines; simbolufa::take_change(left, one); count++)
            again += std::to_string(one.clause) + word_of(one.what) + std::to_string(one.number) + "\n";
        expect("the lines of drawn clauses", told && again == lines && count == told.first && left.size == 0);
    }
}

} // namespace

int main()
{
    check_calls();
    check_sentences();
    check_node_files();
    check_sat_files();
    check_first_lines();
    check_sizes();
    check_texts();
    check_sat();
    check_views();
    check_text_sizes();
    check_convert_after();
    check_together();
    check_origins();
    check_refused_origins();
    check_long_origins();
    check_tidy();
    check_long_tidy();
    check_changes();
    std::printf("wrapper: %d checks, %d wrong\n", checks, wrong);
    return wrong == 0 ? 0 : 1;
}
