// A name as the report shows it.

#ifndef SHOWN_HPP
#define SHOWN_HPP

#include <string>
#include <string_view>

// A text with nothing in it that ends a field or a line, that commands a terminal, or that is not seen or is seen at
// another place. Each byte of such a character, and each byte that is not UTF-8, is shown as \x and two hex digits. A
// backslash is shown twice, so that two names never look the same.
std::string shown(std::string_view text);

#endif
