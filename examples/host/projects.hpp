// Which names the options of a guard have: those of its project.

#ifndef PROJECTS_HPP
#define PROJECTS_HPP

#include "guards.hpp"
#include "names.hpp"
#include "report.hpp"

#include <sys/types.h>

#include <cstdint>
#include <filesystem>
#include <map>
#include <optional>
#include <set>
#include <string>
#include <utility>

class Projects {
public:
    // `given` is a folder with a file of names for each project, PROJECT.txt, or one such file for all guards. Where it is
    // empty, the folder is `names` beside the index that names the project.
    Projects(const std::filesystem::path &given, Report &report);

    // The names of the options of a guard that has so many. They are numbers where its project has no file of names. There
    // are none where the file is wrong, or has names for another number of options. The report says so, once for all
    // guards of which it is true.
    const Names *names_of(const Guard &guard, uint32_t options);

    // Whether a file was read as names, or was to be.
    bool is_names(const std::filesystem::path &path) const;

private:
    // A file of names.
    struct NameFile {
        // None where the file is wrong.
        std::optional<Names> names;
        bool is_there = true;
        // For which numbers of options it was said that the file has too few names, or too many.
        std::set<uint32_t> said;
    };

    // The file of the guard's names, where it can have one.
    std::optional<std::filesystem::path> path_of(const Guard &guard);
    NameFile read(const std::filesystem::path &path, const Guard &guard);

    const std::filesystem::path given;
    const bool is_given_file;
    Report &report;
    const Names numbers = Names::of_numbers();
    std::map<std::string, NameFile> files;
    // What cannot have a file of names. The empty project is that of guards without one.
    std::set<std::string> nameless;
    std::set<std::pair<dev_t, ino_t>> identities;
};

#endif
