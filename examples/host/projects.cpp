// Finding the names of a guard's options. A file of names is read once.

#include "projects.hpp"

#include <sys/stat.h>

#include <new>
#include <string_view>
#include <system_error>

namespace fs = std::filesystem;

namespace {

constexpr std::string_view no_file_name{"/\0", 2};

// Whether a file can have this name, with an ending.
bool is_file_name(const std::string &project)
{
    return !project.empty() && project.find_first_of(no_file_name) == std::string::npos;
}

bool is_there(const fs::path &path)
{
    std::error_code fault;
    // A link that leads nowhere is there, and is not read.
    return fs::symlink_status(path, fault).type() != fs::file_type::not_found;
}

bool is_folder(const fs::path &path)
{
    std::error_code fault;
    return fs::is_directory(path, fault);
}

std::string at_line(const fs::path &path, uint64_t line)
{
    return path.string() + ":" + std::to_string(line);
}

} // namespace

Projects::Projects(const fs::path &given, Report &report)
    : given(given), is_given_file(!given.empty() && !is_folder(given)), report(report)
{
}

const Names *Projects::names_of(const Guard &guard, uint32_t options)
{
    const auto path = path_of(guard);
    if (!path)
        return &numbers;
    auto found = files.find(path->string());
    if (found == files.end())
        found = files.emplace(path->string(), read(*path, guard)).first;
    NameFile &file = found->second;
    if (!file.is_there)
        return &numbers;
    if (!file.names)
        return nullptr;
    const size_t count = file.names->count();
    if (count == options)
        return &*file.names;
    if (file.said.insert(options).second) {
        const std::string why = ": there are " + std::to_string(count) + ", and the guard " + guard.name + " has " +
                                std::to_string(options) + " options";
        if (count < options)
            report.missed(at_line(*path, uint64_t{count} + 1), "this name is missing" + why);
        else
            report.missed(at_line(*path, uint64_t{options} + 1), "this name is one too many" + why);
    }
    return nullptr;
}

bool Projects::is_names(const fs::path &path) const
{
    struct stat status;
    return !identities.empty() && ::stat(path.c_str(), &status) == 0 &&
           identities.count({status.st_dev, status.st_ino}) > 0;
}

std::optional<fs::path> Projects::path_of(const Guard &guard)
{
    if (is_given_file)
        return given;
    if (is_file_name(guard.project))
        return (given.empty() ? fs::path(guard.file).parent_path() / "names" : given) / (guard.project + ".txt");
    if (nameless.insert(guard.project).second) {
        if (guard.project.empty())
            report.no_names(guard.name, "no index says of which project such a guard is");
        else
            report.no_names(guard.project, "no file can be called after the project");
    }
    return std::nullopt;
}

Projects::NameFile Projects::read(const fs::path &path, const Guard &guard)
{
    NameFile file;
    file.is_there = is_there(path);
    if (!file.is_there) {
        report.no_names(guard.project, path.string() + " is not there");
        return file;
    }
    struct stat status;
    if (::stat(path.c_str(), &status) == 0 && S_ISREG(status.st_mode))
        identities.emplace(status.st_dev, status.st_ino);
    try {
        file.names = Names::of_file(path);
    } catch (const WrongName &fault) {
        report.missed(at_line(path, fault.line), fault.what());
    } catch (const Unreadable &fault) {
        report.missed(path.string(), fault.what());
    } catch (const std::bad_alloc &) {
        report.missed(path.string(), "there is not enough memory");
    }
    return file;
}
