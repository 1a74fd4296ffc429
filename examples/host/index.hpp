// The index of a set: which bytes of it are a guard, what the guard's id is and where it comes from.

#ifndef INDEX_HPP
#define INDEX_HPP

#include <cstdint>
#include <string_view>
#include <vector>

// A guard of the set. It begins where the one before it ends.
struct IndexRow {
    std::string_view id;
    // A file and a line. Empty where the index has no such column.
    std::string_view source;
    // Empty where the index has no such column.
    std::string_view project;
    uint64_t length;
};

// Reads an index for a set of so many bytes. The rows are parts of its text. Throws Unreadable where a byte of the set is
// of no guard, since a guard would be lost. A line may end with CR LF.
std::vector<IndexRow> read_index(std::string_view text, uint64_t set_size);

#endif
