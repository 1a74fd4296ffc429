// Reading a node file, line by line.

#include "node_file.hpp"

#include <array>
#include <charconv>
#include <optional>
#include <system_error>

namespace {

constexpr size_t most_nodes = 1024;
constexpr uint32_t most_kind = 255;
constexpr uint32_t most_number = 65535;

simbolufa::answer refused_at(size_t line)
{
    return {{SIMBOLUFA_REFUSED_NODE_FILE, static_cast<uint32_t>(line), 0, 0}};
}

// Takes the first line off a text. There is none where no newline ends it.
std::optional<std::string_view> take_line(std::string_view &text)
{
    const size_t end = text.find('\n');
    if (end == std::string_view::npos)
        return std::nullopt;
    const std::string_view line = text.substr(0, end);
    text.remove_prefix(end + 1);
    return line;
}

// The fields of a line, where it has exactly that many.
template <size_t count> std::optional<std::array<std::string_view, count>> fields_of(std::string_view line)
{
    std::array<std::string_view, count> fields;
    for (size_t at = 0; at + 1 < count; at++) {
        const size_t end = line.find('\t');
        if (end == std::string_view::npos)
            return std::nullopt;
        fields[at] = line.substr(0, end);
        line.remove_prefix(end + 1);
    }
    if (line.find('\t') != std::string_view::npos)
        return std::nullopt;
    fields[count - 1] = line;
    return fields;
}

// A decimal number without a leading zero.
std::optional<uint32_t> number_of(std::string_view field, uint32_t most)
{
    if (field.size() > 1 && field.front() == '0')
        return std::nullopt;
    uint32_t number = 0;
    const char *last = field.data() + field.size();
    const auto [end, error] = std::from_chars(field.data(), last, number);
    if (error != std::errc() || end != last || number > most)
        return std::nullopt;
    return number;
}

std::optional<uint32_t> options_of(std::string_view line)
{
    const auto fields = fields_of<2>(line);
    if (!fields || (*fields)[0] != "options")
        return std::nullopt;
    return number_of((*fields)[1], most_number);
}

void append_number(std::vector<uint8_t> &table, uint32_t number)
{
    table.push_back(static_cast<uint8_t>(number & 255));
    table.push_back(static_cast<uint8_t>(number >> 8));
}

// Appends the record of a node. Gives whether the line is right for that node.
bool append_node(std::vector<uint8_t> &table, std::string_view line, size_t node)
{
    const auto fields = fields_of<4>(line);
    if (!fields || node >= most_nodes)
        return false;
    const auto number = number_of((*fields)[0], most_number);
    const auto kind = number_of((*fields)[1], most_kind);
    const auto a = number_of((*fields)[2], most_number);
    const auto b = number_of((*fields)[3], most_number);
    if (!number || *number != node || !kind || !a || !b)
        return false;
    table.push_back(static_cast<uint8_t>(*kind));
    append_number(table, *a);
    append_number(table, *b);
    return true;
}

} // namespace

simbolufa::answer read_node_file(std::string_view text, Formula &formula)
{
    formula.options = 0;
    formula.table.clear();
    if (text.size() > longest_node_file)
        return refused_at(0);
    const auto first = take_line(text);
    const auto options = first ? options_of(*first) : std::nullopt;
    if (!options)
        return refused_at(1);
    formula.options = *options;
    for (size_t node = 0; !text.empty(); node++) {
        const auto line = take_line(text);
        // Node 0 stands in line 2.
        if (!line || !append_node(formula.table, *line, node))
            return refused_at(node + 2);
    }
    return {};
}
