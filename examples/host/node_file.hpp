// A node file: an option count and a node table, as lines of text.

#ifndef NODE_FILE_HPP
#define NODE_FILE_HPP

#include "formula.hpp"

#include <simbolufa.hpp>

#include <cstddef>
#include <string_view>

// A longer text is no node file.
constexpr size_t longest_node_file = 65536;

// Reads a node file. The answer is acceptance, or refusal 10 with the first line that is wrong or missing.
// Whether the nodes keep to the rules of the table is not looked at: that is the library's.
simbolufa::answer read_node_file(std::string_view text, Formula &formula);

#endif
