// Saying a refusal. The words are those of the library's headers, but for what is wrong only since a file may have several
// guards, or may be a node file or a p sat file.

#include "refusal.hpp"

#include "shown.hpp"

#include <simbolufa_sat_file.h>

#include <cstddef>
#include <cstdint>
#include <string_view>

namespace {

bool starts_with(std::string_view text, std::string_view start)
{
    return text.substr(0, start.size()) == start;
}

// The text from a line on, which is counted from 1.
std::string_view from_line(std::string_view text, uint32_t line)
{
    for (; line > 1 && !text.empty(); line--) {
        const size_t end = text.find('\n');
        text.remove_prefix(end == std::string_view::npos ? text.size() : end + 1);
    }
    return text;
}

const uint8_t *bytes_of(std::string_view text)
{
    return reinterpret_cast<const uint8_t *>(text.data());
}

constexpr std::string_view order_mark = "\xef\xbb\xbf";

// Whether a text that is no p sat text by its first lines was to be one: it begins with the word c or p.
bool is_damaged_sat(std::string_view text)
{
    if (starts_with(text, order_mark))
        text.remove_prefix(order_mark.size());
    while (!text.empty() && simbolufa_is_white_space(static_cast<uint8_t>(text.front())))
        text.remove_prefix(1);
    const simbolufa_text_part word = simbolufa_first_word({bytes_of(text), 0, text.size()});
    return simbolufa_is_word(word, "c", 1) || simbolufa_is_word(word, "p", 1) || simbolufa_is_word(word, "psat", 1);
}

// Whether a line inside a guard was to begin the next guard, but does not start with `options` as it is written.
bool is_damaged_start(std::string_view line)
{
    if (starts_with(line, "options"))
        return false;
    if (starts_with(line, order_mark))
        line.remove_prefix(order_mark.size());
    while (starts_with(line, " ") || starts_with(line, "\t"))
        line.remove_prefix(1);
    constexpr std::string_view word = "option";
    for (size_t at = 0; at < word.size(); at++)
        // A capital letter has one bit less.
        if (at == line.size() || (line[at] | 32) != word[at])
            return false;
    return true;
}

// Where a p sat text is wrong.
simbolufa_position position_of(const Guard &guard, const simbolufa::answer &answer)
{
    return simbolufa_position_of(bytes_of(guard.text), guard.text.size(), answer.place);
}

// The line to mend, counted in the whole file.
uint64_t line_to_mend(const Guard &guard, const simbolufa::answer &answer)
{
    if (answer.number == SIMBOLUFA_REFUSED_SAT_TEXT)
        return guard.line + (position_of(guard, answer).line - 1);
    const uint32_t line = simbolufa_line_of(answer.number, answer.place);
    return line == 0 ? guard.line : guard.line + (line - 1);
}

// What is wrong with a line of a node file only since something else may stand in a file. Empty where nothing is.
std::string fault_in_line(std::string_view text, uint32_t line)
{
    const std::string_view rest = from_line(text, line);
    if (line <= 1 && is_damaged_sat(text))
        return "it is no node file, and no p sat file: that has lines that begin with c, if any, and then one that begins "
               "with p sat";
    if (line > 1 && is_damaged_start(rest))
        return "it looks like the first line of another guard, which starts with the word options in small letters, and "
               "nothing before it";
    if (line > 1 && simbolufa_is_sat_text(bytes_of(rest), rest.size()))
        return "it looks like the beginning of a p sat text, which is a file of its own";
    return "";
}

std::string sentence_of_node_file(const Guard &guard, const simbolufa::answer &answer)
{
    if (answer.number == SIMBOLUFA_REFUSED_NODE_FILE) {
        const std::string fault = fault_in_line(guard.text, answer.place);
        if (!fault.empty())
            return fault;
    }
    return simbolufa_node_file_sentence(bytes_of(guard.text), guard.text.size(), answer.number, answer.place);
}

std::string sentence_of_sat_text(const Guard &guard, const simbolufa::answer &answer)
{
    const std::string words = simbolufa_sat_sentence(bytes_of(guard.text), guard.text.size(), answer.number, answer.place);
    if (answer.number != SIMBOLUFA_REFUSED_SAT_TEXT)
        return words;
    return "column " + std::to_string(position_of(guard, answer).column) + ": " + words;
}

} // namespace

std::string sentence_of(const Guard &guard, const simbolufa::answer &answer)
{
    return guard.is_sat ? sentence_of_sat_text(guard, answer) : sentence_of_node_file(guard, answer);
}

std::string refusal_line(const Guard &guard, const simbolufa::answer &answer, const std::string &sentence)
{
    return shown(guard.name) + "\trefused\t" + std::to_string(answer.number) + "\t" + std::to_string(answer.place) + "\t" +
           shown(guard.source) + "\t" + shown(guard.file) + ":" + std::to_string(line_to_mend(guard, answer)) + "\t" +
           sentence;
}
