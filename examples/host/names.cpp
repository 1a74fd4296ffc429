// Reading names, and making those of helpers.

#include "names.hpp"

namespace {

constexpr size_t most_options = 32000;
// It is read whole.
constexpr size_t longest_file = size_t{64} << 20;

} // namespace

Names Names::of_file(const std::filesystem::path &path)
{
    const std::string whole = read_whole(path, longest_file);
    std::string_view left = whole;
    Names names;
    for (uint64_t line = 1; !left.empty(); line++) {
        const size_t end = left.find('\n');
        const std::string_view name = left.substr(0, end);
        if (end == std::string_view::npos)
            throw WrongName(line, "no newline ends the last name");
        if (name.empty())
            throw WrongName(line, "the line is empty, and each has the name of an option");
        if (name.find('\t') != std::string_view::npos)
            throw WrongName(line, "there is a tab, and no name has one");
        if (names.count() == most_options)
            throw WrongName(line, "this name is one too many: no project has over 32,000 options");
        names.add(name);
        left.remove_prefix(end + 1);
    }
    return names;
}

Names Names::of_numbers()
{
    Names names;
    for (size_t option = 1; option <= most_options; option++)
        names.add(std::to_string(option));
    return names;
}

// No two nodes get the same name: without its brackets it is the node's number.
std::string Names::of_helper(size_t node) const
{
    std::string name = "[" + std::to_string(node) + "]";
    while (bracketed.count(name) > 0)
        name = "[" + name + "]";
    return name;
}

void Names::add(std::string_view name)
{
    text += name;
    text += '\n';
    ends.push_back(text.size());
    if (name.front() == '!')
        name.remove_prefix(1);
    if (name.substr(0, 1) == "[")
        bracketed.emplace(name);
}
