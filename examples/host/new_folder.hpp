// A folder of a pass's own, and files that are put into it whole.

#ifndef NEW_FOLDER_HPP
#define NEW_FOLDER_HPP

#include <filesystem>
#include <stdexcept>
#include <string>
#include <string_view>

// Why something cannot be written.
struct Unwritable : std::runtime_error {
    using std::runtime_error::runtime_error;
};

class NewFolder {
public:
    // Makes the folder, or takes one that is empty. So nothing of another pass is in it, and nobody's file is replaced.
    // Throws Unwritable.
    explicit NewFolder(const std::filesystem::path &path);
    ~NewFolder();
    NewFolder(const NewFolder &) = delete;
    NewFolder &operator=(const NewFolder &) = delete;

    // Puts a file there. It gets its name when it is whole. Throws Unwritable, also where there is one of that name.
    void put(const std::string &name, std::string_view text);

private:
    int descriptor = -1;
};

// A file's name for any name: letters, digits, `_`, and behind the first byte also `-`, `.` and `#`, stay. Each other byte
// is % and two hex digits. So it is no path and not hidden, and two names never become one. No name at all is a single %.
std::string as_file_name(std::string_view name);

#endif
