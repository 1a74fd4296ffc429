// Makes calls of the library from a fuzzer's bytes, and stops the program where a call does what no call may do.
//
// The head of a case names the entry, the numbers, the lengths, and how buffers lie. After a call these are held:
// every lent input and every guard byte, what a refusal may change, the answer part, what other entries say about the
// same input, and for a case that is not too long the whole answer of the reference.

#include "call.h"
#include "tame.h"

#include <map>
#include <optional>
#include <set>

using namespace fuzzing;

namespace {

constexpr uint32_t clause_ceiling = 65535, literal_ceiling = 1000000;
constexpr uint32_t most_clauses = 65534, most_literals = 999999;
// Conversions of more steps are asked with a short buffer, and longer tables are not asked of the reference.
constexpr uint64_t most_steps = 20000000;
constexpr size_t longest_asked_table = 512, longest_asked_output = 100000;
// Origins whose lines may be longer than this are asked with a short buffer.
constexpr size_t longest_lines = size_t(4) << 20;
// The table of a text with more options is not taken through all entries: names would be made for all of them.
constexpr uint32_t most_whole_options = 100;
constexpr size_t most_nodes = 1024;

// A formula as it is lent.
struct Formula {
    uint32_t options;
    Bytes table, set;

    size_t nodes() const { return table.size() / node_length; }
    bool is_asked() const { return table.size() <= longest_asked_table; }
};

// What check says of a formula's table.
simbolufa_answer checked(const Formula &formula)
{
    uint8_t part[SIMBOLUFA_ANSWER_LENGTH];
    simbolufa_check(formula.table.data(), formula.table.size(), formula.options, part, sizeof part);
    return simbolufa_read_answer(part);
}

// Whether a call that looks at the table and the set refuses the table as check does, and else at most the set.
bool refuses_as_check(const Formula &formula, const Said &said)
{
    simbolufa_answer table = checked(formula);
    if (said.number == 11)
        return true;
    if (table.number == 0)
        return said.number == 0 || said.number == 4;
    return said.number == table.number && said.place == table.place;
}

Formula formula_of(const Case &from)
{
    Formula formula{from.number(), from.first(), from.second()};
    if (from.tames_first())
        formula.table = tamed_table(formula.table, formula.options);
    // A set can be tamed where the table is right.
    if (from.tames_second() && checked(formula).number == 0)
        formula.set = tamed_set(formula.set, formula.table);
    return formula;
}

Said check(const Case &from, const Formula &formula)
{
    Call call(from, "check");
    call.number(formula.options);
    Lent &table = call.input(formula.table);
    Lent &answer = call.answer_part(from.answer_length());
    uint32_t result = simbolufa_check(table.data(), table.size(), formula.options, answer.data(), answer.size());
    Said said = call.made(result, {});
    must(result <= 2 || is_for_a_record(result) || result == 11, "check: no such refusal");
    must(!is_for_a_record(result) || said.place < formula.nodes(), "check: a place outside the table");
    call.ask_reference(result);
    return said;
}

Said measure(const Case &from, const Formula &formula, size_t answer_length)
{
    Call call(from, "measure");
    call.number(formula.options);
    Lent &table = call.input(formula.table);
    Lent &set = call.input(formula.set);
    Lent &answer = call.answer_part(answer_length);
    uint32_t result = simbolufa_measure(table.data(), table.size(), formula.options, set.data(), set.size(),
                                        answer.data(), answer.size());
    Said said = call.made(result, {});
    must(refuses_as_check(formula, said), "measure: another refusal of the table than check's");
    must(said.first <= clause_ceiling && said.second <= literal_ceiling, "measure: a total above its ceiling");
    must(said.first < clause_ceiling || said.second == literal_ceiling, "measure: a literal total that is not stated");
    if (formula.is_asked())
        call.ask_reference(result);
    return said;
}

// Chooses, and gives the set where one was chosen.
Bytes choose(const Case &from, const Formula &formula, size_t set_length, size_t answer_length)
{
    Call call(from, "choose");
    call.number(formula.options);
    call.number(from.allowance());
    Lent &table = call.input(formula.table);
    Lent &set = call.output(set_length);
    Lent &answer = call.answer_part(answer_length);
    uint32_t result = simbolufa_choose(table.data(), table.size(), formula.options, from.allowance(), set.data(),
                                       set.size(), answer.data(), answer.size());
    Said said = call.made(result, {set.size()});
    must(refuses_as_check(formula, said), "choose: another refusal of the table than check's");
    if (formula.is_asked())
        call.ask_reference(result);
    if (result != 0)
        return {};
    Bytes chosen = set.now();
    size_t picks = std::count(chosen.begin(), chosen.end(), 1);
    must(picks + std::count(chosen.begin(), chosen.end(), 0) == chosen.size(), "choose: a byte that is not 0 or 1");
    must(picks == said.first && picks <= from.allowance(), "choose: other picks");
    Said total = measure(from, {formula.options, formula.table, chosen}, SIMBOLUFA_ANSWER_LENGTH);
    must(total.number == 0 && total.first == said.second, "choose: another total than the set's");
    must(from.allowance() < formula.nodes() || said.second < clause_ceiling, "choose: too many clauses with all allowed");
    return chosen;
}

// What is taken before a guard. Nothing is said of it in convert.
using Taken = std::optional<uint32_t>;

// Whether each variable of a conversion is an option or one of its own helpers, and these come after what is taken.
bool keeps_names(const Bytes &clauses, uint32_t options, uint32_t taken, uint32_t last)
{
    for (size_t at = 0; at < clauses.size(); at += 4) {
        int64_t number = static_cast<int32_t>(number_at(clauses, at));
        uint64_t variable = std::abs(number);
        if (variable > options && (variable <= taken || variable > last))
            return false;
    }
    return true;
}

// Converts, and gives the clause bytes where there are any. `variables` gets the variables.
Bytes convert(const Case &from, const Formula &formula, Taken after, size_t answer_length, uint32_t &variables)
{
    uint32_t taken = after.value_or(formula.options);
    Said totals = measure(from, formula, SIMBOLUFA_ANSWER_LENGTH);
    uint64_t needed = 4 * (uint64_t(totals.first) + totals.second);
    bool is_short = (uint64_t(totals.first) + totals.second) * formula.nodes() > most_steps;
    bool below = totals.first < clause_ceiling && totals.second < literal_ceiling;
    Call call(from, after ? "convert_after" : "convert");
    call.number(formula.options);
    if (after)
        call.number(taken);
    Lent &table = call.input(formula.table);
    Lent &set = call.input(formula.set);
    Lent &out = call.output(is_short || !below ? 8 : from.room(needed));
    Lent &answer = call.answer_part(answer_length);
    uint32_t result = after ? simbolufa_convert_after(table.data(), table.size(), formula.options, taken, set.data(),
                                                      set.size(), out.data(), out.size(), answer.data(), answer.size())
                            : simbolufa_convert(table.data(), table.size(), formula.options, set.data(), set.size(),
                                                out.data(), out.size(), answer.data(), answer.size());
    Said said = call.made(result, {needed});
    bool is_table_right = totals.number == 0 || totals.number == 4;
    uint32_t expected = answer.size() != SIMBOLUFA_ANSWER_LENGTH   ? 11
                        : !is_table_right                          ? totals.number
                        : taken < formula.options                  ? 2
                        : taken > most_options                     ? 2
                        : totals.number != 0                       ? totals.number
                        : totals.first == clause_ceiling           ? 5
                        : totals.second == literal_ceiling         ? 6
                        : out.size() < needed                      ? 7
                                                                   : 0;
    must(result == expected, "convert: another number than the totals and the room say");
    must(result != totals.number || said.place == totals.place, "convert: another place than measure's");
    if (formula.is_asked() && out.size() <= longest_asked_output)
        call.ask_reference(result);
    if (result != 0)
        return {};
    Bytes clauses = out.now();
    clauses.resize(needed);
    uint32_t zeros = 0;
    for (size_t at = 0; at < clauses.size(); at += 4)
        zeros += number_at(clauses, at) == 0;
    must(zeros == totals.first && said.second == zeros, "convert: another clause total than that of the clauses");
    uint32_t helpers = std::count(formula.set.begin(), formula.set.end(), 1);
    must(said.first == taken + helpers, "convert: other variables");
    must(keeps_names(clauses, formula.options, taken, said.first), "convert: a variable that is somebody else's");
    variables = said.first;
    return clauses;
}

// A formula with the two lists of names, as they are lent.
struct Named {
    Formula formula;
    Bytes option_names, helper_names;

    size_t helpers() const { return std::count(formula.set.begin(), formula.set.end(), 1); }
};

// What stands behind the set are the lists. Its last two bytes say how long the second is.
Named named_of(const Case &from)
{
    Formula formula = formula_of(from);
    Bytes rest = from.second();
    size_t set = std::min(formula.nodes(), rest.size());
    formula.set.resize(std::min(formula.nodes(), formula.set.size()));
    rest.erase(rest.begin(), rest.begin() + set);
    size_t second = 0;
    if (rest.size() >= 2) {
        second = rest[rest.size() - 2] | rest[rest.size() - 1] << 8;
        rest.resize(rest.size() - 2);
    }
    size_t split = rest.size() - std::min(second, rest.size());
    Named named{formula, Bytes(rest.begin(), rest.begin() + split), Bytes(rest.begin() + split, rest.end())};
    if (from.tames_option_names())
        named.option_names = tamed_names(named.option_names, std::min(formula.options, most_options));
    if (from.tames_helper_names())
        named.helper_names = tamed_names(named.helper_names, named.helpers());
    return named;
}

using Texts = std::vector<std::string>;

// Adds the names of a list to others. It tells whether the list is right for so many.
bool add_names(const Bytes &list, size_t count, Texts &names)
{
    std::string name;
    for (uint8_t byte : list) {
        if (byte == '\t' || (byte == '\n' && (name.empty() || count == 0)))
            return false;
        if (byte != '\n') {
            name += static_cast<char>(byte);
            continue;
        }
        names.push_back(name);
        name.clear();
        count--;
    }
    return name.empty() && count == 0;
}

// Which clause is asked for. Where none is said it is all of them.
using Wanted = std::optional<uint32_t>;

uint32_t call_origin(const Named &named, Wanted clause, const Lent &table, const Lent &set, const Lent &option_names,
                     const Lent &helper_names, const Lent &out, const Lent &answer)
{
    uint32_t options = named.formula.options;
    if (clause)
        return simbolufa_origin(table.data(), table.size(), options, set.data(), set.size(), *clause,
                                option_names.data(), option_names.size(), helper_names.data(), helper_names.size(),
                                out.data(), out.size(), answer.data(), answer.size());
    return simbolufa_origins(table.data(), table.size(), options, set.data(), set.size(), option_names.data(),
                             option_names.size(), helper_names.data(), helper_names.size(), out.data(), out.size(),
                             answer.data(), answer.size());
}

// The line of a clause, or the lines of all, of a call that has this room, which is enough.
std::string text_with_room(const Named &named, Wanted clause, size_t room)
{
    const auto &[formula, option_names, helper_names] = named;
    Bytes out(room);
    uint8_t part[SIMBOLUFA_ANSWER_LENGTH];
    uint32_t result =
        clause ? simbolufa_origin(formula.table.data(), formula.table.size(), formula.options, formula.set.data(),
                                  formula.set.size(), *clause, option_names.data(), option_names.size(),
                                  helper_names.data(), helper_names.size(), out.data(), out.size(), part, sizeof part)
               : simbolufa_origins(formula.table.data(), formula.table.size(), formula.options, formula.set.data(),
                                   formula.set.size(), option_names.data(), option_names.size(), helper_names.data(),
                                   helper_names.size(), out.data(), out.size(), part, sizeof part);
    must(result == 0, "origin: a refusal with room enough");
    size_t lines = clause ? 1 : simbolufa_read_answer(part).second, length = 0;
    for (; lines > 0; length++) {
        must(length < out.size(), "origin: too few lines");
        lines -= out[length] == '\n';
    }
    return std::string(out.begin(), out.begin() + length);
}

// A part of the output as its lines tell it.
struct Part {
    size_t node;
    uint32_t helper;
    const char *word;
};

std::vector<Part> parts_of(const Formula &formula)
{
    std::vector<Part> parts = {{formula.nodes() - 1, 0, "root"}};
    uint32_t helper = formula.options;
    for (size_t node = 0; node < formula.nodes(); node++)
        if (formula.set[node] == 1) {
            parts.push_back({node, ++helper, "down"});
            parts.push_back({node, helper, "up"});
        }
    return parts;
}

// Whether a clause of so many literals may stand in a part: a half has its helper at its own end.
bool may_stand_in(const Part &part, const Bytes &clauses, size_t start, size_t end)
{
    if (part.helper == 0)
        return true;
    if (start == end)
        return false;
    return part.word[0] == 'd' ? number_at(clauses, start) == 0 - part.helper
                               : number_at(clauses, end - 4) == part.helper;
}

// Holds all lines to the clauses of a conversion: each has the literals of its clause, parts come in their order, and
// numbers in a part count from 0.
void hold_lines(const Named &named, const Texts &names, const Said &totals, const std::string &text)
{
    const Formula &formula = named.formula;
    Bytes clauses(4 * (size_t(totals.first) + totals.second));
    uint8_t answer[SIMBOLUFA_ANSWER_LENGTH];
    uint32_t result = simbolufa_convert(formula.table.data(), formula.table.size(), formula.options, formula.set.data(),
                                        formula.set.size(), clauses.data(), clauses.size(), answer, sizeof answer);
    must(result == 0, "origins: clauses that convert does not give");
    const std::vector<Part> parts = parts_of(formula);
    size_t at = 0, word = 0, part = 0, number = 0;
    for (size_t k = 0; k < totals.first; k++) {
        std::string literals;
        size_t start = word;
        for (; number_at(clauses, word) != 0; word += 4) {
            int64_t literal = static_cast<int32_t>(number_at(clauses, word));
            literals += literal < 0 ? "\t!" : "\t";
            literals += names[std::abs(literal) - 1];
        }
        size_t end = std::min(text.find('\n', at), text.size());
        const std::string line = text.substr(at, end - at);
        // The next clause of the part, or the first of a later one.
        for (;; part++, number = 0) {
            must(part < parts.size(), "origins: a line that is not the clause's");
            const Part &now = parts[part];
            std::string front = std::to_string(k) + "\t" + std::to_string(now.node) + "\t" +
                                std::to_string(now.helper) + "\t" + now.word + "\t" + std::to_string(number);
            if (line == front + literals && may_stand_in(now, clauses, start, word))
                break;
        }
        number++;
        word += 4;
        at = end + 1;
    }
    must(at == text.size(), "origins: a line too many");
}

// Asks where a clause comes from, or where all do.
void origin(const Case &from, const Named &named, Wanted clause, size_t answer_length)
{
    const Formula &formula = named.formula;
    Said totals = measure(from, formula, SIMBOLUFA_ANSWER_LENGTH);
    Texts names;
    bool has_names =
        add_names(named.option_names, formula.options, names) && add_names(named.helper_names, named.helpers(), names);
    uint32_t expected = totals.number != 0                  ? totals.number
                        : totals.first == clause_ceiling    ? 5
                        : totals.second == literal_ceiling  ? 6
                        : clause && *clause >= totals.first ? 15
                        : !has_names                        ? 16
                                                            : 0;
    size_t longest = 0;
    for (const std::string &name : names)
        longest = std::max(longest, name.size());
    // A line has at most 28 bytes beside its literals.
    size_t most = 28 * size_t(totals.first) + (2 + longest) * size_t(totals.second);
    bool is_long = most > longest_lines || (uint64_t(totals.first) + totals.second) * formula.nodes() > most_steps;
    std::string text;
    if (expected == 0 && !is_long)
        text = text_with_room(named, clause, most);
    Call call(from, clause ? "origin" : "origins");
    call.number(formula.options);
    if (clause)
        call.number(*clause);
    Lent &table = call.input(formula.table);
    Lent &set = call.input(formula.set);
    Lent &option_names = call.input(named.option_names);
    Lent &helper_names = call.input(named.helper_names);
    // No line has less than 13 bytes.
    Lent &out = call.output(is_long ? 12 : from.room(expected == 0 ? text.size() : 64));
    Lent &answer = call.answer_part(answer_length);
    uint32_t result = call_origin(named, clause, table, set, option_names, helper_names, out, answer);
    Said said = call.made(result, {text.size()});
    if (expected == 0 && (is_long || out.size() < text.size()))
        expected = 7;
    if (answer.size() != SIMBOLUFA_ANSWER_LENGTH)
        expected = 11;
    must(result == expected, "origin: another number than the totals, the names and the room say");
    must(result != totals.number || said.place == totals.place, "origin: another place than measure's");
    must(result != 15 || said.place == *clause, "origin: another place than the clause's number");
    size_t lists = named.option_names.size() + named.helper_names.size();
    if (formula.is_asked() && !is_long && out.size() + lists <= longest_asked_output)
        call.ask_reference(result);
    if (result != 0)
        return;
    must(said.first == formula.options + named.helpers(), "origin: other variables");
    must(said.second == totals.first, "origin: another clause total");
    // Of bytes: a char over 127 is below 0 on some machines.
    const Bytes bytes(text.begin(), text.end());
    must(std::equal(bytes.begin(), bytes.end(), out.data()), "origin: the text hangs on the room");
    if (!clause)
        return hold_lines(named, names, totals, text);
    // The line is one of all lines.
    std::string all = text_with_room(named, {}, most);
    size_t start = 0;
    for (uint32_t k = 0; k < *clause; k++)
        start = all.find('\n', start) + 1;
    must(all.compare(start, text.size(), text) == 0, "origin: another line than among all");
}

// The text of clause bytes as the rules write it, or none where they are refused.
bool text_of(const Bytes &clauses, uint32_t variables, std::string &text)
{
    uint32_t zeros = 0, literals = 0;
    if (clauses.size() % 4 != 0 || variables > most_variables)
        return false;
    for (size_t at = 0; at < clauses.size(); at += 4) {
        int64_t number = static_cast<int32_t>(number_at(clauses, at));
        zeros += number == 0, literals += number != 0;
        if (std::abs(number) > int64_t(variables))
            return false;
        text += number == 0 ? "0\n" : std::to_string(number) + " ";
    }
    text = "p cnf " + std::to_string(variables) + " " + std::to_string(zeros) + "\n" + text;
    bool closed = clauses.empty() || number_at(clauses, clauses.size() - 4) == 0;
    return closed && zeros <= most_clauses && literals <= most_literals;
}

Said read_dimacs(const Case &from, const Bytes &bytes, size_t room, size_t answer_length, Bytes &clauses);

// Writes, and reads what was written.
void write_dimacs(const Case &from, const Bytes &bytes, uint32_t variables, size_t answer_length)
{
    std::string expected;
    bool right = text_of(bytes, variables, expected);
    Call call(from, "write_dimacs");
    call.number(variables);
    Lent &clauses = call.input(bytes);
    Lent &text = call.output(from.room(right ? expected.size() : 64));
    Lent &answer = call.answer_part(answer_length);
    uint32_t result = simbolufa_write_dimacs(clauses.data(), clauses.size(), variables, text.data(), text.size(),
                                             answer.data(), answer.size());
    Said said = call.made(result, {expected.size()});
    uint32_t number = answer.size() != SIMBOLUFA_ANSWER_LENGTH ? 11
                      : !right                                 ? 9
                      : text.size() < expected.size()          ? 7
                                                               : 0;
    must(result == number, "write_dimacs: another number");
    if (bytes.size() <= longest_asked_output)
        call.ask_reference(result);
    if (result != 0)
        return;
    must(std::equal(expected.begin(), expected.end(), text.data()), "write_dimacs: another text");
    Bytes again;
    Bytes lent(expected.begin(), expected.end());
    Said back = read_dimacs(from, lent, bytes.size(), SIMBOLUFA_ANSWER_LENGTH, again);
    must(back.number == 0 && again == bytes, "what was written does not come back");
    must(back.first == said.first && back.second == said.second, "its variables and clauses do not come back");
}

// Reads a text. `clauses` gets the clause bytes where it is accepted.
Said read_dimacs(const Case &from, const Bytes &bytes, size_t room, size_t answer_length, Bytes &clauses)
{
    Call call(from, "read_dimacs");
    Lent &text = call.input(bytes);
    Lent &out = call.output(room);
    Lent &answer = call.answer_part(answer_length);
    uint32_t result =
        simbolufa_read_dimacs(text.data(), text.size(), out.data(), out.size(), answer.data(), answer.size());
    Bytes now = out.now(), part = answer.now();
    bool is_accepted = result == 0 && part.size() == SIMBOLUFA_ANSWER_LENGTH;
    // The bytes of an accepted text's clauses end with the last of the zeros that it declares.
    uint32_t declared = is_accepted ? number_at(part, 12) : 0;
    size_t written = 0;
    for (uint32_t closed = 0; closed < declared && written + 4 <= now.size(); written += 4)
        closed += number_at(now, written) == 0;
    Said said = call.made(result, {written});
    must(result == 0 || result == 7 || result == 8 || result == 11, "read_dimacs: no such refusal");
    must(said.place <= bytes.size(), "read_dimacs: a place after the text");
    if (bytes.size() <= longest_asked_output)
        call.ask_reference(result);
    now.resize(written);
    clauses = now;
    return said;
}

// Holds the place of a text that is refused: what stands before it begins some accepted text, and with one byte more it does
// not.
template <typename Read> void hold_place(const Bytes &text, const Said &said, Read read)
{
    for (size_t length = said.place; length <= std::min<size_t>(text.size(), said.place + size_t(1)); length++) {
        Said other = read(Bytes(text.begin(), text.begin() + length));
        bool is_cut = length == said.place && other.number != said.number;
        must(is_cut || (other.number == said.number && other.place == said.place), "another place for a beginning");
    }
}

// Reads a text of the fuzzer. What is accepted is written and read again, and a refusal's place is held.
void read_any(const Case &from)
{
    Bytes text = from.first(), clauses, again;
    size_t room = from.has_exact_room() ? 2 * text.size() : from.room(0);
    Said said = read_dimacs(from, text, room, from.answer_length(), clauses);
    if (said.number == 0)
        write_dimacs(from, clauses, said.first, SIMBOLUFA_ANSWER_LENGTH);
    if (said.number == 8)
        hold_place(text, said, [&](const Bytes &front) {
            return read_dimacs(from, front, 0, SIMBOLUFA_ANSWER_LENGTH, again);
        });
}

// Reads the text of a formula. `table` gets the nodes where it is accepted.
Said read_sat(const Case &from, const Bytes &bytes, size_t room, size_t answer_length, Bytes &table)
{
    Call call(from, "read_sat");
    Lent &text = call.input(bytes);
    Lent &out = call.output(room);
    Lent &answer = call.answer_part(answer_length);
    uint32_t result =
        simbolufa_read_sat(text.data(), text.size(), out.data(), out.size(), answer.data(), answer.size());
    bool is_accepted = result == 0 && answer.size() == SIMBOLUFA_ANSWER_LENGTH;
    size_t written = is_accepted ? node_length * number_at(answer.now(), 12) : 0;
    Said said = call.made(result, {written});
    must(result == 0 || result == 7 || result == 11 || result == 17 || result == 18, "read_sat: no such refusal");
    must(said.place <= bytes.size(), "read_sat: a place after the text");
    if (bytes.size() <= longest_asked_output)
        call.ask_reference(result);
    table = out.now();
    table.resize(written);
    return said;
}

void whole(const Case &from, Formula formula);

// Reads the text of a formula of the fuzzer. What is accepted is a right table, and is taken through all other entries. A
// refusal's place is held.
void read_any_formula(const Case &from)
{
    Bytes text = from.first(), table;
    if (from.tames_first())
        text = tamed_text(text, from.number());
    Said most = read_sat(from, text, node_length * most_nodes, SIMBOLUFA_ANSWER_LENGTH, table);
    must(most.number != 7, "read_sat: no room for the most nodes");
    must(most.number != 17 || !from.tames_first(), "read_sat: a right text is refused");
    Said said = read_sat(from, text, from.room(table.size()), from.answer_length(), table);
    must(said.number == most.number || said.number == 7 || said.number == 11, "read_sat: the room changes the answer");
    if (most.number == 17)
        hold_place(text, most, [&](const Bytes &front) {
            return read_sat(from, front, 0, SIMBOLUFA_ANSWER_LENGTH, table);
        });
    if (said.number != 0)
        return;
    Formula formula{said.first, table, {}};
    must(checked(formula).number == 0, "read_sat: a table that check refuses");
    if (formula.is_asked() && formula.options <= most_whole_options)
        whole(from, formula);
}

// What tidying leaves of clauses, and its lines.
struct Tidied {
    Bytes kept;
    std::string lines;
    uint32_t changes = 0, clauses = 0;

    void tell(size_t clause, const char *word, size_t number)
    {
        lines += std::to_string(clause) + "\t" + word + "\t" + std::to_string(number) + "\n";
        changes++;
    }

    // Keeps a clause, from its first number to its zero. `firsts` tells where each literal stands first.
    void keep(const Bytes &clauses, size_t start, size_t end, size_t clause, const std::map<int64_t, size_t> &firsts)
    {
        for (size_t at = start; at < end; at += 4) {
            size_t position = (at - start) / 4;
            auto first = firsts.find(static_cast<int32_t>(number_at(clauses, at)));
            if (first != firsts.end() && first->second != position)
                tell(clause, "literal", position);
            else
                kept.insert(kept.end(), clauses.begin() + at, clauses.begin() + at + 4);
        }
        this->clauses++;
    }
};

// Tidies right clause bytes by the rule.
Tidied tidied_of(const Bytes &clauses)
{
    Tidied tidied;
    // The literals of each kept clause, with its number.
    std::map<std::set<int64_t>, size_t> sets;
    std::map<int64_t, size_t> firsts;
    size_t clause = 0, start = 0;
    for (size_t at = 0; at < clauses.size(); at += 4) {
        int64_t number = static_cast<int32_t>(number_at(clauses, at));
        if (number != 0) {
            firsts.emplace(number, (at - start) / 4);
            continue;
        }
        std::set<int64_t> set;
        bool is_tautology = false;
        for (const auto &[literal, position] : firsts) {
            set.insert(literal);
            is_tautology = is_tautology || firsts.count(-literal) > 0;
        }
        auto same = sets.find(set);
        if (is_tautology) {
            tidied.tell(clause, "tautology", 0);
        } else if (same != sets.end()) {
            tidied.tell(clause, "repeat", same->second);
        } else {
            sets.emplace(set, clause);
            tidied.keep(clauses, start, at + 4, clause, firsts);
        }
        clause++;
        start = at + 4;
        firsts.clear();
    }
    return tidied;
}

// Tidies, and holds what is left and what is told. What is left is tidied again, and is written.
void tidy(const Case &from, const Bytes &bytes, uint32_t variables, size_t answer_length, bool is_again = false)
{
    std::string text;
    bool right = text_of(bytes, variables, text);
    Tidied expected = right ? tidied_of(bytes) : Tidied();
    Call call(from, "tidy");
    call.number(variables);
    Lent &clauses = call.input(bytes);
    Lent &out = call.output(from.room(right ? expected.kept.size() : 64));
    Lent &changes = call.output(from.second_room(right ? expected.lines.size() : 64));
    Lent &answer = call.answer_part(answer_length);
    uint32_t result = simbolufa_tidy(clauses.data(), clauses.size(), variables, out.data(), out.size(), changes.data(),
                                     changes.size(), answer.data(), answer.size());
    Said said = call.made(result, {expected.kept.size(), expected.lines.size()});
    bool has_room = out.size() >= expected.kept.size() && changes.size() >= expected.lines.size();
    uint32_t number = answer.size() != SIMBOLUFA_ANSWER_LENGTH ? 11 : !right ? 9 : !has_room ? 7 : 0;
    must(result == number, "tidy: another number");
    if (bytes.size() <= longest_asked_output)
        call.ask_reference(result);
    if (result != 0)
        return;
    must(said.first == expected.changes && said.second == expected.clauses, "tidy: other numbers of lines and clauses");
    must(std::equal(expected.kept.begin(), expected.kept.end(), out.data()), "tidy: other clauses");
    must(std::equal(expected.lines.begin(), expected.lines.end(), changes.data()), "tidy: other lines");
    must(!is_again || (said.first == 0 && expected.kept == bytes), "tidy: what was tidied is not tidy");
    if (is_again)
        return;
    tidy(from, expected.kept, variables, SIMBOLUFA_ANSWER_LENGTH, true);
    write_dimacs(from, expected.kept, variables, SIMBOLUFA_ANSWER_LENGTH);
}

Bytes clauses_of(const Case &from)
{
    return from.tames_first() ? tamed_clauses(from.first(), from.number()) : from.first();
}

void write_any(const Case &from)
{
    write_dimacs(from, clauses_of(from), from.number(), from.answer_length());
}

// Chooses, converts under the chosen set, converts once more after that, writes and tidies the clauses, and asks where they
// come from.
void whole(const Case &from, Formula formula)
{
    formula.set = choose(from, formula, formula.nodes(), SIMBOLUFA_ANSWER_LENGTH);
    uint32_t variables = 0;
    Bytes clauses = convert(from, formula, {}, SIMBOLUFA_ANSWER_LENGTH, variables);
    uint32_t more = variables;
    if (variables > 0)
        convert(from, formula, variables, SIMBOLUFA_ANSWER_LENGTH, more);
    if (!clauses.empty() && clauses.size() <= longest_asked_output) {
        write_dimacs(from, clauses, variables, SIMBOLUFA_ANSWER_LENGTH);
        tidy(from, clauses, variables, SIMBOLUFA_ANSWER_LENGTH);
    }
    Named named{formula, tamed_names({}, std::min(formula.options, most_options)), {}};
    named.helper_names = tamed_names({}, named.helpers());
    origin(from, named, {}, SIMBOLUFA_ANSWER_LENGTH);
}

} // namespace

extern "C" int LLVMFuzzerTestOneInput(const uint8_t *data, size_t size)
{
    Case from(data, size);
    uint32_t variables = 0;
    switch (from.entry() % 12) {
    case 0:
        check(from, formula_of(from));
        break;
    case 1:
        measure(from, formula_of(from), from.answer_length());
        break;
    case 2: {
        Formula formula = formula_of(from);
        choose(from, formula, from.room(formula.nodes()), from.answer_length());
        break;
    }
    case 3:
        convert(from, formula_of(from), {}, from.answer_length(), variables);
        break;
    case 4:
        write_any(from);
        break;
    case 5:
        read_any(from);
        break;
    case 6:
        convert(from, formula_of(from), from.taken(), from.answer_length(), variables);
        break;
    case 7:
        origin(from, named_of(from), from.clause(), from.answer_length());
        break;
    case 8:
        origin(from, named_of(from), {}, from.answer_length());
        break;
    case 9:
        read_any_formula(from);
        break;
    case 10:
        tidy(from, clauses_of(from), from.number(), from.answer_length());
        break;
    default:
        whole(from, formula_of(from));
    }
    return 0;
}
