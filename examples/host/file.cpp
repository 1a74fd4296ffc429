// Reading a file part by part.

#include "file.hpp"

#include "signals.hpp"

#include <fcntl.h>
#include <sys/stat.h>
#include <unistd.h>

#include <algorithm>
#include <cerrno>
#include <system_error>

namespace fs = std::filesystem;

namespace {

constexpr size_t part_size = 65536;

Unreadable last_error()
{
    return Unreadable(std::generic_category().message(errno));
}

} // namespace

File::File(const fs::path &path)
    // A pipe may stand there since it was looked at, and opening it would wait for a writer.
    : descriptor(::open(path.c_str(), O_RDONLY | O_NONBLOCK | O_CLOEXEC | O_NOCTTY))
{
    if (descriptor < 0)
        throw last_error();
    struct stat status;
    if (::fstat(descriptor, &status) == 0 && S_ISREG(status.st_mode)) {
        length = static_cast<uint64_t>(status.st_size);
        return;
    }
    ::close(descriptor);
    throw Unreadable(no_file);
}

File::~File()
{
    ::close(descriptor);
}

std::string_view File::read(uint64_t most)
{
    part.resize(part_size);
    const auto wanted = static_cast<size_t>(std::min<uint64_t>(most, part.size()));
    for (;;) {
        stop_if_caught();
        const ssize_t count = ::read(descriptor, part.data(), wanted);
        if (count >= 0)
            return {part.data(), static_cast<size_t>(count)};
        if (errno != EINTR)
            throw last_error();
    }
}

std::string read_whole(const fs::path &path, size_t most)
{
    File file(path);
    std::string text;
    for (std::string_view part; !(part = file.read()).empty(); text += part)
        if (part.size() > most - text.size())
            throw Unreadable("it is over " + std::to_string(most) + " bytes");
    return text;
}
