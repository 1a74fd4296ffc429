// Asking the library where clauses come from, and writing what it says.

#include "origins.hpp"

#include <algorithm>
#include <cstddef>
#include <cstring>
#include <new>

namespace fs = std::filesystem;

namespace {

// Names may be of any length, and a million literals have them.
constexpr size_t longest_lines = size_t{256} << 20;
// What stands before the literals of a line, and its newline.
constexpr size_t longest_head = sizeof "65533\t1023\t33023\tdown\t65533\n" - 1;

// How many bytes the first lines of a text have. It has so many lines, or more.
size_t length_of_lines(const std::vector<uint8_t> &text, uint32_t lines)
{
    const uint8_t *end = text.data();
    for (; lines > 0; lines--) {
        const auto left = static_cast<size_t>(text.data() + text.size() - end);
        end = static_cast<const uint8_t *>(std::memchr(end, '\n', left)) + 1;
    }
    return static_cast<size_t>(end - text.data());
}

} // namespace

Origins::Origins(const fs::path &folder, const fs::path &names, Report &report)
    : path(folder), report(report), folder(folder), projects(names, report)
{
}

std::string_view Origins::write(const Guard &guard, const Formula &formula, simbolufa::bytes set, simbolufa::bytes clauses)
{
    const Names *names = projects.names_of(guard, formula.options);
    if (names == nullptr) {
        report.without_origins();
        return {};
    }
    const std::string name = as_file_name(guard.name) + ".tsv";
    try {
        const std::string_view text = lines_of(formula, set, clauses, *names);
        folder.put(name, text);
        return text;
    } catch (const Unwritable &fault) {
        report.unwritten(path / name, fault.what());
    } catch (const std::bad_alloc &) {
        report.unwritten(path / name, "there is not enough memory");
    }
    return {};
}

void Origins::name_helpers(simbolufa::bytes set, const Names &names)
{
    helpers.clear();
    helper_lengths.clear();
    for (size_t node = 0; node < set.size; node++) {
        if (set.data[node] == 0)
            continue;
        const std::string name = names.of_helper(node);
        helpers += name + "\n";
        helper_lengths.push_back(name.size());
    }
}

size_t Origins::room_for(simbolufa::bytes clauses, uint32_t options, const Names &names) const
{
    size_t room = 0;
    for (size_t at = 0; at < clauses.size; at += 4) {
        const auto literal = static_cast<int32_t>(simbolufa_read_number(clauses.data + at));
        const auto variable = static_cast<uint32_t>(literal < 0 ? -literal : literal);
        if (variable == 0)
            room += longest_head;
        else
            // A tab, and it may be negated.
            room += 2 + (variable <= options ? names.length_of(variable) : helper_lengths[variable - options - 1]);
    }
    return room;
}

std::string_view Origins::lines_of(const Formula &formula, simbolufa::bytes set, simbolufa::bytes clauses, const Names &names)
{
    name_helpers(set, names);
    const size_t room = room_for(clauses, formula.options, names);
    if (room > longest_lines)
        throw Unwritable("the lines would be over " + std::to_string(longest_lines) + " bytes");
    lines.resize(std::max(lines.size(), room));
    const auto told = simbolufa::origins(formula.table, formula.options, set, names.first(formula.options), helpers, lines);
    if (!told)
        throw Unwritable(told.sentence());
    // The second value is the number of clauses, and each has a line.
    return {reinterpret_cast<const char *>(lines.data()), length_of_lines(lines, told.second)};
}
