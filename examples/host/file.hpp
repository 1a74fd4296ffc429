// A file that is read part by part, so that its length does not matter.

#ifndef FILE_HPP
#define FILE_HPP

#include <cstddef>
#include <cstdint>
#include <filesystem>
#include <stdexcept>
#include <string>
#include <string_view>
#include <vector>

// Why something cannot be read.
struct Unreadable : std::runtime_error {
    using std::runtime_error::runtime_error;
};

// Said of a pipe or a device, for instance.
constexpr const char *no_file = "neither a file nor a folder";

class File {
public:
    // Opens a file. Throws Unreadable where it cannot be opened, or is something else.
    explicit File(const std::filesystem::path &path);
    ~File();
    File(const File &) = delete;
    File &operator=(const File &) = delete;

    // Its length when it was opened.
    uint64_t size() const { return length; }

    // The next bytes, at most so many. There are none at the end alone. They are gone with the next call. Throws
    // Unreadable, and Stopped after a signal.
    std::string_view read(uint64_t most = UINT64_MAX);

private:
    int descriptor;
    uint64_t length = 0;
    // Not on the stack: a walk through folders has many calls open.
    std::vector<char> part;
};

// The whole of a file that is not longer than that. Throws as above.
std::string read_whole(const std::filesystem::path &path, size_t most);

#endif
