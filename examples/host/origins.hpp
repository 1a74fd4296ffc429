// Files that tell where the clauses of guards come from, one for each guard.

#ifndef ORIGINS_HPP
#define ORIGINS_HPP

#include "formula.hpp"
#include "guards.hpp"
#include "names.hpp"
#include "new_folder.hpp"
#include "projects.hpp"
#include "report.hpp"

#include <simbolufa.hpp>

#include <cstddef>
#include <cstdint>
#include <filesystem>
#include <string>
#include <string_view>
#include <vector>

class Origins {
public:
    // Files go into a new or an empty folder. `names` is as for Projects. Throws Unwritable.
    Origins(const std::filesystem::path &folder, const std::filesystem::path &names, Report &report);

    // Writes the file of a guard that was converted under this set to these clauses. It has the line of each. Where the
    // guard gets no file the report says so. Gives what the file has. It is gone with the next call.
    std::string_view write(const Guard &guard, const Formula &formula, simbolufa::bytes set, simbolufa::bytes clauses);

    // Whether a file was read as names, or was to be.
    bool is_names(const std::filesystem::path &path) const { return projects.is_names(path); }

private:
    void name_helpers(simbolufa::bytes set, const Names &names);
    // At least as many bytes as the lines of the clauses have.
    size_t room_for(simbolufa::bytes clauses, uint32_t options, const Names &names) const;
    // The lines of all clauses. They are gone with the next call. Throws Unwritable.
    std::string_view lines_of(const Formula &formula, simbolufa::bytes set, simbolufa::bytes clauses, const Names &names);

    const std::filesystem::path path;
    Report &report;
    NewFolder folder;
    Projects projects;
    // The names of the guard's helpers as a list, and how many bytes each has.
    std::string helpers;
    std::vector<size_t> helper_lengths;
    // It serves all guards, and has room for the longest so far.
    std::vector<uint8_t> lines;
};

#endif
