// Keeping the text of a guard, and looking at its first lines.

#include "guard_text.hpp"

#include "node_file.hpp"

#include <algorithm>

namespace {

// One byte more shows that a node file is too long.
constexpr size_t longest_kept = longest_node_file + 1;

} // namespace

void GuardText::add(std::string_view part)
{
    for (size_t at = 0; at < part.size() && !simbolufa_is_decided(first_lines); at++) {
        // A comment is passed over at once.
        if (first_lines == SIMBOLUFA_IN_COMMENT)
            at = std::min(part.find('\n', at), part.size() - 1);
        first_lines = simbolufa_look(first_lines, static_cast<uint8_t>(part[at]));
    }
    length += part.size();
    lines += static_cast<uint64_t>(std::count(part.begin(), part.end(), '\n'));
    // As long as it may be a p sat text it is kept as one.
    const size_t most = first_lines == SIMBOLUFA_IS_NODE_FILE ? longest_kept : longest_sat_text;
    if (text.size() < most)
        text.append(part.substr(0, most - text.size()));
}

void GuardText::clear()
{
    text.clear();
    length = 0;
    lines = 0;
    first_lines = SIMBOLUFA_AT_LINE;
}
