// The text of a guard as it is read, part by part.

#ifndef GUARD_TEXT_HPP
#define GUARD_TEXT_HPP

#include <simbolufa_node_file.h>

#include <cstddef>
#include <cstdint>
#include <string>
#include <string_view>

// How much of a p sat text is kept. Without comments and needless white space none with 1,024 nodes is that long.
constexpr size_t longest_sat_text = size_t{16} << 20;

// It keeps as much of a text as can matter, so that the length of a file does not.
class GuardText {
public:
    void add(std::string_view part);
    void clear();

    // What is kept. Of a node file that is too long it is too long as well.
    std::string_view kept() const { return text; }
    // Whether not all is kept.
    bool is_cut() const { return length > text.size(); }
    // How many lines end in the text, kept or not.
    uint64_t newlines() const { return lines; }
    // Whether it is a p sat text by its first lines. Until these decide it is none.
    bool is_sat() const { return first_lines == SIMBOLUFA_IS_SAT; }

private:
    std::string text;
    uint64_t length = 0;
    uint64_t lines = 0;
    simbolufa_first_lines first_lines = SIMBOLUFA_AT_LINE;
};

#endif
