// Reading the index of a set.

#include "index.hpp"

#include "file.hpp"

#include <algorithm>
#include <charconv>
#include <cstddef>
#include <optional>
#include <string>
#include <system_error>

namespace {

// Takes the part before a mark off a text, and the mark. Without a mark it takes all.
std::string_view take_part(std::string_view &text, char mark)
{
    const size_t end = text.find(mark);
    const std::string_view part = text.substr(0, end);
    text.remove_prefix(end == std::string_view::npos ? text.size() : end + 1);
    return part;
}

std::string_view take_line(std::string_view &text)
{
    std::string_view line = take_part(text, '\n');
    if (!line.empty() && line.back() == '\r')
        line.remove_suffix(1);
    return line;
}

std::vector<std::string_view> fields_of(std::string_view line)
{
    std::vector<std::string_view> fields(1 + static_cast<size_t>(std::count(line.begin(), line.end(), '\t')));
    for (std::string_view &field : fields)
        field = take_part(line, '\t');
    return fields;
}

std::optional<uint64_t> number_of(std::string_view field)
{
    uint64_t number = 0;
    const char *last = field.data() + field.size();
    const auto [end, error] = std::from_chars(field.data(), last, number);
    if (error != std::errc() || end != last)
        return std::nullopt;
    return number;
}

// Which column has what. The first line names them.
class Columns {
public:
    explicit Columns(std::string_view line) : names(fields_of(line)) {}

    size_t count() const { return names.size(); }

    std::optional<size_t> find(std::string_view name) const
    {
        const auto found = std::find(names.begin(), names.end(), name);
        if (found == names.end())
            return std::nullopt;
        return static_cast<size_t>(found - names.begin());
    }

    size_t at(const std::string &name) const
    {
        const auto found = find(name);
        if (!found)
            throw Unreadable("there is no column " + name);
        return *found;
    }

private:
    std::vector<std::string_view> names;
};

Unreadable fault_in(size_t line, const char *what)
{
    return Unreadable("line " + std::to_string(line) + what);
}

} // namespace

std::vector<IndexRow> read_index(std::string_view text, uint64_t set_size)
{
    if (text.empty())
        throw Unreadable("there is no line that names the columns");
    const Columns columns(take_line(text));
    const size_t id = columns.at("id");
    const size_t offset = columns.at("offset");
    const size_t length = columns.at("length");
    const auto source = columns.find("file:line");
    const auto project = columns.find("project");
    const std::string_view none;
    std::vector<IndexRow> rows;
    uint64_t start = 0;
    for (size_t line = 2; !text.empty(); line++) {
        const auto fields = fields_of(take_line(text));
        if (fields.size() != columns.count())
            throw fault_in(line, " has not one field for each column");
        const auto first = number_of(fields[offset]);
        const auto count = number_of(fields[length]);
        if (!first || *first != start)
            throw fault_in(line, " does not begin where the guard before it ends");
        if (!count || *count > set_size - start)
            throw fault_in(line, " goes past the end of the guards");
        rows.push_back({fields[id], source ? fields[*source] : none, project ? fields[*project] : none, *count});
        start += *count;
    }
    if (rows.empty())
        throw Unreadable("there is no guard in it");
    if (start != set_size)
        throw Unreadable("guards stand behind the last one that it names");
    return rows;
}
