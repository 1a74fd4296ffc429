// Lent buffers, with what nobody may touch round them.
#pragma once

#include <sys/mman.h>

#include <algorithm>
#include <cstdint>
#include <cstdio>
#include <cstdlib>
#include <string>
#include <vector>

namespace fuzzing {

using Bytes = std::vector<uint8_t>;

[[noreturn]] inline void stop(const std::string &wrong)
{
    std::fprintf(stderr, "fault: %s\n", wrong.c_str());
    std::abort();
}

inline void must(bool holds, const char *wrong)
{
    if (!holds)
        stop(wrong);
}

// Room for one lent buffer, between two pages that nobody may touch.
class Arena {
public:
    Arena()
    {
        void *all = mmap(nullptr, size + 2 * page, PROT_NONE, MAP_PRIVATE | MAP_ANONYMOUS, -1, 0);
        must(all != MAP_FAILED, "no memory");
        start = static_cast<uint8_t *>(all) + page;
        must(mprotect(start, size, PROT_READ | PROT_WRITE) == 0, "no memory");
    }

    // A place for so many bytes that ends or begins at a page that nobody may touch.
    uint8_t *place(size_t length, bool at_end)
    {
        must(length <= size, "a buffer is too long");
        return at_end ? start + size - length : start;
    }

    static constexpr size_t page = 65536, size = size_t(8) << 20;

private:
    uint8_t *start;
};

// A buffer that is lent to a call. On one side is a page that nobody may touch, on the other are guard bytes.
class Lent {
public:
    Lent(Arena &arena, const Bytes &bytes, bool null, bool at_end)
        : before(bytes), null(null && bytes.empty()), at_end(at_end), start(arena.place(bytes.size(), at_end))
    {
        std::copy(bytes.begin(), bytes.end(), start);
        uint8_t *guard = guards();
        for (size_t i = 0; i < guard_length; i++)
            guard[i] = mark(i);
    }

    uint8_t *data() const { return null ? nullptr : start; }
    size_t size() const { return before.size(); }
    bool is_null() const { return null; }
    const Bytes &as_before() const { return before; }
    Bytes now() const { return Bytes(start, start + before.size()); }
    bool is_unchanged() const { return std::equal(before.begin(), before.end(), start); }

    bool has_guards() const
    {
        const uint8_t *guard = guards();
        for (size_t i = 0; i < guard_length; i++)
            if (guard[i] != mark(i))
                return false;
        return true;
    }

    // Whether every byte from a place on is as before.
    bool is_unchanged_from(size_t from) const
    {
        return from <= size() && std::equal(before.begin() + from, before.end(), start + from);
    }

private:
    static constexpr size_t guard_length = 64;
    static uint8_t mark(size_t i) { return static_cast<uint8_t>(53 * i + 197); }
    uint8_t *guards() const { return at_end ? start - guard_length : start + before.size(); }

    Bytes before;
    bool null, at_end;
    uint8_t *start;
};

} // namespace fuzzing
