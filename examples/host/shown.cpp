// Showing a name: which characters are shown as they are.

#include "shown.hpp"

#include <cstddef>
#include <cstdint>

namespace {

struct Character {
    uint32_t number;
    // 0 where no UTF-8 stands there.
    size_t length;
};

struct Range {
    uint32_t first;
    uint32_t last;
};

// Characters of Unicode that are not shown as they are, by what they are.
constexpr Range hidden[] = {
    {0x00, 0x1f},       // control characters
    {0x7f, 0x9f},       // delete and more control characters
    {0xad, 0xad},       // a hyphen that is not seen
    {0x61c, 0x61c},     // direction of writing
    {0x180e, 0x180e},   // a space of no width
    {0x200b, 0x200f},   // no width, and direction
    {0x2028, 0x202e},   // ends of lines, and direction
    {0x2060, 0x206f},   // no width, and direction
    {0xfeff, 0xfeff},   // byte order
    {0xfff9, 0xfffb},   // notes between lines
    {0xe0000, 0xe0fff}, // tags
};

// The first character of a text that is not empty.
Character first_of(std::string_view text)
{
    const auto byte = [text](size_t at) { return static_cast<uint32_t>(static_cast<unsigned char>(text[at])); };
    const uint32_t lead = byte(0);
    if (lead < 0x80)
        return {lead, 1};
    // The least number for each length: a smaller one has a shorter form.
    constexpr uint32_t least[] = {0, 0, 0x80, 0x800, 0x10000};
    const size_t length = lead >= 0xf8 ? 0 : lead >= 0xf0 ? 4 : lead >= 0xe0 ? 3 : lead >= 0xc0 ? 2 : 0;
    if (length == 0 || length > text.size())
        return {0, 0};
    uint32_t number = lead & (0x7fu >> length);
    for (size_t at = 1; at < length; at++) {
        if ((byte(at) & 0xc0) != 0x80)
            return {0, 0};
        number = number << 6 | (byte(at) & 0x3f);
    }
    const bool is_half = number >= 0xd800 && number <= 0xdfff;
    if (number < least[length] || number > 0x10ffff || is_half)
        return {0, 0};
    return {number, length};
}

bool is_hidden(uint32_t number)
{
    for (const Range &range : hidden)
        if (number >= range.first && number <= range.last)
            return true;
    return false;
}

void append_hex(std::string &out, std::string_view bytes)
{
    constexpr char digits[] = "0123456789abcdef";
    for (const char byte : bytes) {
        const auto value = static_cast<unsigned char>(byte);
        out += "\\x";
        out += digits[value >> 4];
        out += digits[value & 15];
    }
}

} // namespace

std::string shown(std::string_view text)
{
    std::string out;
    while (!text.empty()) {
        const Character character = first_of(text);
        const size_t length = character.length == 0 ? 1 : character.length;
        const std::string_view bytes = text.substr(0, length);
        text.remove_prefix(length);
        if (character.length == 0 || is_hidden(character.number))
            append_hex(out, bytes);
        else if (character.number == '\\')
            out += "\\\\";
        else
            out += bytes;
    }
    return out;
}
