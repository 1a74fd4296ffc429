// Making a folder, and putting files into it.

#include "new_folder.hpp"

#include "report.hpp"

#include <fcntl.h>
#include <sys/stat.h>
#include <unistd.h>

#include <cerrno>
#include <system_error>

namespace fs = std::filesystem;

namespace {

// What a file is called until it is whole. It is hidden, and as_file_name gives no hidden name.
constexpr const char *part_name = ".part";

Unwritable error_of(int number)
{
    return Unwritable(std::generic_category().message(number));
}

bool is_one_of(char byte, std::string_view bytes)
{
    return bytes.find(byte) != std::string_view::npos;
}

// Writes a file from its beginning to its end. Gives the error that it met, or 0.
int write_whole(int descriptor, std::string_view text)
{
    Output output(descriptor);
    output.write(text);
    const int fault = output.has_failed() ? errno : 0;
    // What was written may turn out not to be when the file is closed.
    return ::close(descriptor) != 0 && fault == 0 ? errno : fault;
}

} // namespace

NewFolder::NewFolder(const fs::path &path)
{
    if (::mkdir(path.c_str(), 0777) != 0) {
        const int fault = errno;
        std::error_code none;
        const fs::directory_iterator entry(path, none);
        if (fault != EEXIST)
            throw error_of(fault);
        if (none)
            throw Unwritable(none.message());
        if (entry != fs::directory_iterator())
            throw Unwritable("the folder is not empty, and its files may be of another pass");
    }
    descriptor = ::open(path.c_str(), O_RDONLY | O_DIRECTORY | O_CLOEXEC);
    if (descriptor < 0)
        throw error_of(errno);
}

NewFolder::~NewFolder()
{
    ::close(descriptor);
}

void NewFolder::put(const std::string &name, std::string_view text)
{
    struct stat status;
    if (::fstatat(descriptor, name.c_str(), &status, AT_SYMLINK_NOFOLLOW) == 0)
        throw Unwritable("another guard of this pass has the same name");
    if (errno != ENOENT)
        throw error_of(errno);
    const int part = ::openat(descriptor, part_name, O_WRONLY | O_CREAT | O_EXCL | O_CLOEXEC, 0666);
    if (part < 0)
        throw error_of(errno);
    int fault = write_whole(part, text);
    if (fault == 0 && ::renameat(descriptor, part_name, descriptor, name.c_str()) != 0)
        fault = errno;
    if (fault == 0)
        return;
    ::unlinkat(descriptor, part_name, 0);
    throw error_of(fault);
}

std::string as_file_name(std::string_view name)
{
    constexpr std::string_view always = "abcdefghijklmnopqrstuvwxyzABCDEFGHIJKLMNOPQRSTUVWXYZ0123456789_";
    constexpr std::string_view behind = "-.#";
    constexpr char digits[] = "0123456789abcdef";
    if (name.empty())
        return "%";
    std::string file;
    for (const char byte : name) {
        if (is_one_of(byte, always) || (!file.empty() && is_one_of(byte, behind))) {
            file += byte;
            continue;
        }
        const auto value = static_cast<unsigned char>(byte);
        file += '%';
        file += digits[value >> 4];
        file += digits[value & 15];
    }
    return file;
}
