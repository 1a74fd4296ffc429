// One call: what it lends, what every call keeps to, and what the reference answers.
#pragma once

#include "case.h"
#include "simbolufa.h"

#include <utility>

extern "C" size_t reference_answer(const char *request, size_t length, char *answer, size_t room);

namespace fuzzing {

// Buffers over this length are shown by their hash.
constexpr size_t longest_shown = 4096;
// The most buffers that a call lends.
constexpr size_t most_buffers = 6;

// What a call returned, and the values of its answer part where it has one.
struct Said {
    uint32_t number, place, first, second;
};

inline uint32_t number_at(const Bytes &bytes, size_t at)
{
    return simbolufa_read_number(bytes.data() + at);
}

// Whether a refusal is one for a record: its kind, an unused field, a child, a symbol.
inline bool is_for_a_record(uint32_t number)
{
    return number == 3 || (number >= 12 && number <= 14);
}

inline Bytes filled(size_t length, size_t factor, size_t first)
{
    Bytes bytes(length);
    for (size_t i = 0; i < length; i++)
        bytes[i] = static_cast<uint8_t>(factor * i + first);
    return bytes;
}

inline std::string hex(const Bytes &bytes)
{
    static const char digits[] = "0123456789abcdef";
    std::string text;
    for (uint8_t byte : bytes) {
        text += digits[byte >> 4];
        text += digits[byte & 15];
    }
    return text;
}

// A buffer as an answer of the line protocol shows it.
inline std::string shown(const Bytes &bytes)
{
    if (bytes.empty())
        return "-";
    if (bytes.size() <= longest_shown)
        return hex(bytes);
    uint64_t value = 14695981039346656037u;
    for (uint8_t byte : bytes)
        value = (value ^ byte) * 1099511628211u;
    char text[17];
    std::snprintf(text, sizeof text, "%016llx", static_cast<unsigned long long>(value));
    return "#" + std::to_string(bytes.size()) + ":" + text;
}

// One call: what it lends, and the request of the line protocol that asks for the same.
class Call {
public:
    Call(const Case &from, std::string operation) : from(from), request(std::move(operation)) {}

    void number(uint32_t value) { request += " " + std::to_string(value); }

    Lent &input(const Bytes &bytes)
    {
        Lent &buffer = lend(bytes);
        request += bytes.empty() ? buffer.is_null() ? " -" : " =" : " " + hex(bytes);
        inputs.push_back(buffers.size() - 1);
        return buffer;
    }

    Lent &output(size_t length) { return writable(filled(length, 91, 5)); }

    Lent &answer_part(size_t length)
    {
        Lent &buffer = writable(filled(length, 37, 11));
        answer = buffers.size() - 1;
        return buffer;
    }

    // Holds what every call keeps to. `written` has, for each output but the answer part, the length of the front that an
    // accepted call may change.
    Said made(uint32_t result, std::vector<size_t> written) const
    {
        for (const Lent &buffer : buffers)
            must(buffer.has_guards(), "a guard byte changed");
        for (size_t input : inputs)
            must(buffers[input].is_unchanged(), "a lent input changed");
        size_t output = 0;
        for (size_t at = 0; at < buffers.size(); at++) {
            if (at == answer || std::find(inputs.begin(), inputs.end(), at) != inputs.end())
                continue;
            must(result == 0 || buffers[at].is_unchanged(), "a refusal changed an output");
            must(result != 0 || buffers[at].is_unchanged_from(written[output]), "a byte after the output changed");
            output++;
        }
        const Lent &part = buffers[answer];
        must((result == 11) == (part.size() != SIMBOLUFA_ANSWER_LENGTH), "11 is not the answer part's length");
        if (result == 11) {
            must(part.is_unchanged(), "11 changed the answer part");
            return {result, 0, 0, 0};
        }
        Bytes bytes = part.now();
        Said said{number_at(bytes, 0), number_at(bytes, 4), number_at(bytes, 8), number_at(bytes, 12)};
        must(said.number == result, "the answer part has another number than the call returned");
        must(result == 0 || (said.first == 0 && said.second == 0), "a refusal has a value");
        bool has_place = is_for_a_record(result) || result == 4 || result == 8 || result == 15 || result == 17;
        must(has_place || said.place == 0, "a place where there is none");
        return said;
    }

    // Holds the whole answer to the reference's.
    void ask_reference(uint32_t result) const
    {
        std::string mine = std::to_string(result);
        for (size_t at = 0; at < buffers.size(); at++)
            if (std::find(inputs.begin(), inputs.end(), at) == inputs.end())
                mine += " " + shown(buffers[at].now());
        std::string expected(32 + 2 * 3 * (longest_shown + 64), '\0');
        expected.resize(reference_answer(request.data(), request.size(), &expected[0], expected.size()));
        if (mine != expected)
            stop("the reference answers otherwise\n  request   " + request + "\n  reference " + expected +
                 "\n  library   " + mine);
    }

private:
    Lent &lend(const Bytes &bytes)
    {
        static Arena arenas[most_buffers];
        size_t at = buffers.size();
        buffers.emplace_back(arenas[at], bytes, from.null(at), from.at_end(at));
        return buffers.back();
    }

    Lent &writable(const Bytes &bytes)
    {
        Lent &buffer = lend(bytes);
        request += bytes.empty() ? buffer.is_null() ? " -" : " 0" : " " + std::to_string(bytes.size());
        return buffer;
    }

    const Case &from;
    std::string request;
    // Reserved, since a lent buffer is held by reference while more are lent.
    std::vector<Lent> buffers = reserved();
    std::vector<size_t> inputs;
    size_t answer = 0;

    static std::vector<Lent> reserved()
    {
        std::vector<Lent> made;
        made.reserve(most_buffers);
        return made;
    }
};

} // namespace fuzzing
