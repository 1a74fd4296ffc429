// Where guards come from: node files, files of several node files, p sat files, and folders of them.

#ifndef GUARDS_HPP
#define GUARDS_HPP

#include <cstdint>
#include <filesystem>
#include <string>
#include <string_view>

// A guard as it is found. Its text is a node file or a p sat text, right or wrong. A long one may be cut short: a node file
// to a length that is still too long to be right, and a p sat text to longest_sat_text.
struct Guard {
    // The file, the file and a number from 1, or the id of an index.
    std::string name;
    // Where the guard stands, as a file and a line. Empty where the name says it.
    std::string source;
    // The file that the text stands in, and the line of the file on which it begins, from 1.
    std::string file;
    uint64_t line;
    std::string_view text;
    // The project, by the index. Empty where there is none.
    std::string project = {};
    // Whether the text is a p sat text by its first lines.
    bool is_sat = false;
    bool is_cut = false;
};

// Takes what is found. A text is gone after the call.
class GuardTaker {
public:
    virtual ~GuardTaker() = default;
    virtual void take(const Guard &guard) = 0;
    // Something is not read, and its guards are missing.
    virtual void miss(const std::filesystem::path &path, const std::string &why) = 0;
    // A hidden file or folder, or an editor's backup, is no guard.
    virtual void pass_over(const std::filesystem::path &path) = 0;
    // Whether a file was read as names of options. Then it is not read as guards.
    virtual bool is_names(const std::filesystem::path &path) const = 0;
};

// Finds the guards at a path, and what cannot be read. What cannot be read keeps nothing else from being read.
//
// A file is a p sat file where its first lines say so, and that is one guard. Else it is one node file, or several: each
// line that starts with `options` begins one. A folder is walked, and every file in it is read, in the order of names. But
// where index.tsv stands beside guards.txt, the index says where each guard of guards.txt begins and ends, what its id is
// and where it comes from. The first lines of each guard say what it is. Where the index cannot be used, guards.txt is read
// without it.
void find_guards(const std::filesystem::path &path, GuardTaker &taker);

#endif
