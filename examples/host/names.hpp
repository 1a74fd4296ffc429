// Names of variables: those of a project's options, and those of helpers beside them.

#ifndef NAMES_HPP
#define NAMES_HPP

#include "file.hpp"

#include <simbolufa.hpp>

#include <cstddef>
#include <cstdint>
#include <filesystem>
#include <string>
#include <string_view>
#include <unordered_set>
#include <vector>

// A line of a file of names that is wrong, from 1, and what is wrong with it.
struct WrongName : Unreadable {
    WrongName(uint64_t line, const std::string &what) : Unreadable(what), line(line) {}
    const uint64_t line;
};

// The names of options, as the list that the library takes. One is made for all guards of a project.
class Names {
public:
    // The names of a file: line k is option k. A name is one byte or more, of any value but tab and newline. Throws
    // Unreadable, and WrongName for the first line that is wrong.
    static Names of_file(const std::filesystem::path &path);

    // As many as a project can have: the name of option k is its number.
    static Names of_numbers();

    size_t count() const { return ends.size() - 1; }

    // The list of the first options. There are as many names, or more.
    simbolufa::bytes first(uint32_t options) const { return {text.data(), ends[options]}; }

    // How many bytes the name of an option has.
    size_t length_of(uint32_t option) const { return ends[option] - ends[option - 1] - 1; }

    // The name of a node's helper: its number in brackets, `[7]`. Where an option has that name, or it with `!` before it,
    // further brackets are put round it, until none has. So a helper's literal never looks like an option's.
    std::string of_helper(size_t node) const;

private:
    // Adds the name and its newline to what the list has.
    void add(std::string_view name);

    std::string text;
    // Where the names end, each behind its newline. The first is where the list begins.
    std::vector<size_t> ends = {0};
    // Names of options that begin with a bracket. A `!` before it is left out.
    std::unordered_set<std::string> bracketed;
};

#endif
