// Finding guards in files, folders and indexed sets.

#include "guards.hpp"

#include "file.hpp"
#include "guard_text.hpp"
#include "index.hpp"

#include <algorithm>
#include <cstddef>
#include <cstdint>
#include <new>
#include <system_error>
#include <utility>
#include <vector>

namespace fs = std::filesystem;

namespace {

constexpr const char *set_name = "guards.txt";
constexpr const char *index_name = "index.tsv";
// It is read whole.
constexpr size_t longest_index = size_t{256} << 20;

// Takes the guards of a file without an index: the p sat text, or the node files. They come as parts of any length.
class Pieces {
public:
    Pieces(const fs::path &path, GuardTaker &taker) : path(path.string()), taker(taker) {}

    void add(std::string_view part)
    {
        window.append(part);
        const std::string_view text = window;
        size_t start = 0;
        for (size_t at; !piece.is_sat() && (at = text.find(begin, start)) != std::string_view::npos; start = at + 1) {
            piece.add(text.substr(start, at + 1 - start));
            // A p sat text goes on to the end of the file, whatever its lines begin with.
            if (!piece.is_sat())
                take(true);
        }
        // The last bytes may be the first ones of `begin`.
        const size_t open = std::min(text.size() - start, begin.size() - 1);
        piece.add(text.substr(start, text.size() - open - start));
        window.erase(0, text.size() - open);
    }

    void end()
    {
        piece.add(window);
        take(false);
    }

private:
    static constexpr std::string_view begin = "\noptions";

    void take(bool has_next)
    {
        number++;
        Guard guard{path, "", path, line, piece.kept(), "", piece.is_sat(), piece.is_cut()};
        if (number > 1 || has_next) {
            guard.name += "#" + std::to_string(number);
            guard.source = path + ":" + std::to_string(line);
        }
        taker.take(guard);
        line += piece.newlines();
        piece.clear();
    }

    const std::string path;
    GuardTaker &taker;
    // What was added and is of no piece yet.
    std::string window;
    GuardText piece;
    uint64_t number = 0;
    // Where the piece begins.
    uint64_t line = 1;
};

void take_file(const fs::path &path, GuardTaker &taker)
{
    File file(path);
    Pieces pieces(path, taker);
    for (std::string_view part; !(part = file.read()).empty();)
        pieces.add(part);
    pieces.end();
}

// Reads so many bytes.
void read_guard(File &set, uint64_t length, GuardText &text)
{
    text.clear();
    while (length > 0) {
        const std::string_view part = set.read(length);
        if (part.empty())
            throw Unreadable("it became shorter while it was read");
        text.add(part);
        length -= part.size();
    }
}

// Takes guards.txt by its index.
void take_set(const fs::path &path, const fs::path &index, GuardTaker &taker)
{
    File set(path);
    std::string lines;
    std::vector<IndexRow> rows;
    try {
        lines = read_whole(index, longest_index);
        rows = read_index(lines, set.size());
    } catch (const Unreadable &fault) {
        taker.miss(index, fault.what());
        return take_file(path, taker);
    }
    const std::string file = path.string();
    GuardText text;
    uint64_t line = 1;
    for (const IndexRow &row : rows) {
        read_guard(set, row.length, text);
        taker.take({std::string(row.id), std::string(row.source), file, line, text.kept(), std::string(row.project),
                    text.is_sat(), text.is_cut()});
        line += text.newlines();
    }
}

bool is_file(const fs::path &path)
{
    std::error_code fault;
    return fs::is_regular_file(path, fault);
}

// The files of a set that an index takes apart.
bool is_indexed(const fs::path &folder)
{
    return is_file(folder / set_name) && is_file(folder / index_name);
}

// What a path leads to.
fs::file_type type_of(const fs::path &path)
{
    std::error_code fault;
    const fs::file_type type = fs::status(path, fault).type();
    if (type == fs::file_type::not_found)
        throw Unreadable("no such file or folder");
    if (fault)
        throw Unreadable(fault.message());
    return type;
}

// A link may lead back to where the walk comes from.
bool is_linked_folder(const fs::path &path)
{
    std::error_code fault;
    return fs::is_symlink(path, fault) && fs::is_directory(path, fault);
}

bool is_passed_over(const fs::path &path)
{
    const std::string name = path.filename().string();
    const bool is_saved = name.size() > 1 && name.front() == '#' && name.back() == '#';
    return name.front() == '.' || name.back() == '~' || is_saved;
}

// What a folder has, in the order of names. Where not all of it can be told, the rest is.
std::vector<fs::path> paths_in(const fs::path &folder, GuardTaker &taker)
{
    std::vector<fs::path> paths;
    std::error_code fault;
    fs::directory_iterator entry(folder, fault);
    for (; !fault && entry != fs::directory_iterator(); entry.increment(fault))
        paths.push_back(entry->path());
    if (fault)
        taker.miss(folder, fault.message());
    else if (paths.empty())
        taker.miss(folder, "the folder is empty");
    else if (std::all_of(paths.begin(), paths.end(), is_passed_over))
        taker.miss(folder, "hidden files and backups are all that is in it");
    std::sort(paths.begin(), paths.end());
    return paths;
}

// Whether a walk leaves out what it finds in a folder.
bool is_left_out(const fs::path &path, GuardTaker &taker)
{
    if (is_passed_over(path)) {
        taker.pass_over(path);
        return true;
    }
    if (is_linked_folder(path)) {
        taker.miss(path, "a linked folder is not walked");
        return true;
    }
    // An index is read with its set, and names with the guards of their project.
    return (path.filename() == index_name && is_indexed(path.parent_path())) || taker.is_names(path);
}

// Takes what is no folder.
void take_path(const fs::path &path, fs::file_type type, GuardTaker &taker)
{
    if (type != fs::file_type::regular)
        throw Unreadable(no_file);
    const fs::path index = path.parent_path() / index_name;
    if (path.filename() == set_name && is_file(index))
        return take_set(path, index, taker);
    take_file(path, taker);
}

} // namespace

void find_guards(const fs::path &path, GuardTaker &taker)
{
    // What is still to be looked at, the next one last. A walk of its own for each folder would go as deep as they do.
    std::vector<fs::path> open = {path};
    for (bool is_named = true; !open.empty(); is_named = false) {
        const fs::path next = std::move(open.back());
        open.pop_back();
        if (!is_named && is_left_out(next, taker))
            continue;
        try {
            const fs::file_type type = type_of(next);
            if (type != fs::file_type::directory) {
                take_path(next, type, taker);
                continue;
            }
            const std::vector<fs::path> paths = paths_in(next, taker);
            open.insert(open.end(), paths.rbegin(), paths.rend());
        } catch (const Unreadable &fault) {
            taker.miss(next, fault.what());
        } catch (const std::bad_alloc &) {
            taker.miss(next, "there is not enough memory");
        }
    }
}
