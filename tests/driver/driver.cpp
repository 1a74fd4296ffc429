// Answers requests of the line protocol by calling the library, and watches every lent byte.

#include "simbolufa.h"

#include <algorithm>
#include <cstdint>
#include <cstdio>
#include <cstdlib>
#include <deque>
#include <iostream>
#include <map>
#include <string>
#include <utility>
#include <vector>

namespace {

// Guard bytes before and after each lent buffer.
constexpr size_t guard = 64;
// A buffer starts at any of this many offsets from an aligned place.
constexpr size_t offsets = 16;
// Buffers over this length are shown by their hash.
constexpr size_t longest_shown = 4096;

// Exit codes: a line that is not a request, and a fault of the library.
constexpr int not_a_request = 2;
constexpr int fault = 3;

enum class Use { input, output, answer };

// A buffer lent to the library, with guard bytes on both sides.
class Lent {
public:
    // `turn` settles the buffer's alignment and its guard bytes.
    Lent(Use use, bool null, const std::vector<uint8_t> &bytes, uint64_t turn)
        : use(use), null(null), start(guard + turn % offsets), length(bytes.size())
    {
        before.resize(start + length + guard);
        for (size_t i = 0; i < before.size(); i++)
            before[i] = static_cast<uint8_t>(53 * i + 29 * turn + 197);
        std::copy(bytes.begin(), bytes.end(), before.begin() + start);
        now = before;
    }

    uint8_t *data() { return null ? nullptr : now.data() + start; }
    size_t size() const { return length; }
    bool is_input() const { return use == Use::input; }
    bool is_answer() const { return use == Use::answer; }

    // Whether every byte that the library may not change is as before.
    bool is_kept() const
    {
        if (is_input())
            return now == before;
        size_t end = start + length;
        return std::equal(now.begin(), now.begin() + start, before.begin()) &&
               std::equal(now.begin() + end, now.end(), before.begin() + end);
    }

    // The buffer as an answer shows it.
    std::string shown() const
    {
        static const char digits[] = "0123456789abcdef";
        if (length == 0)
            return "-";
        if (length > longest_shown)
            return "#" + std::to_string(length) + ":" + hash();
        std::string text;
        for (size_t i = start; i < start + length; i++) {
            text += digits[now[i] >> 4];
            text += digits[now[i] & 15];
        }
        return text;
    }

private:
    // The 64-bit FNV-1a hash in hex.
    std::string hash() const
    {
        uint64_t value = 14695981039346656037u;
        for (size_t i = start; i < start + length; i++)
            value = (value ^ now[i]) * 1099511628211u;
        char text[17];
        std::snprintf(text, sizeof text, "%016llx", static_cast<unsigned long long>(value));
        return text;
    }

    Use use;
    bool null;
    size_t start;
    size_t length;
    std::vector<uint8_t> before;
    std::vector<uint8_t> now;
};

// One request: its fields are read from the left, and what it lends is kept until it is answered.
class Request {
public:
    Request(uint64_t turn, const std::string &line) : turn(turn), line(line) {}

    std::string word()
    {
        if (at > line.size())
            stop("a field is missing", not_a_request);
        size_t end = std::min(line.find(' ', at), line.size());
        std::string field = line.substr(at, end - at);
        at = end + 1;
        return field;
    }

    uint32_t number() { return from_decimal(word()); }

    Lent &input()
    {
        std::string field = word();
        if (field == "-" || field == "=")
            return lend(Use::input, field == "-", {});
        return lend(Use::input, false, from_parts(field));
    }

    Lent &output() { return filled(Use::output, 91, 5); }

    Lent &answer_part() { return filled(Use::answer, 37, 11); }

    void end() const
    {
        if (at <= line.size())
            stop("a field too many", not_a_request);
    }

    // Looks at every lent byte after the call, and gives the answer line.
    std::string answered(uint32_t result)
    {
        std::string text = std::to_string(result);
        for (Lent &buffer : lent) {
            if (!buffer.is_kept())
                stop(buffer.is_input() ? "a lent input or its guard changed" : "a guard byte changed", fault);
            if (buffer.is_answer() && buffer.size() == SIMBOLUFA_ANSWER_LENGTH &&
                simbolufa_read_answer(buffer.data()).number != result)
                stop("the answer part has another number than the call returned", fault);
            if (!buffer.is_input())
                text += " " + buffer.shown();
        }
        return text;
    }

    [[noreturn]] void stop(const std::string &wrong, int code) const
    {
        std::cerr << "driver: request " << turn << ": " << wrong << std::endl;
        std::exit(code);
    }

private:
    Lent &lend(Use use, bool null, const std::vector<uint8_t> &bytes)
    {
        lent.emplace_back(use, null, bytes, turn + 5 * lent.size());
        return lent.back();
    }

    // A lent buffer whose byte i is `factor` times i plus `first`.
    Lent &filled(Use use, size_t factor, size_t first)
    {
        std::string field = word();
        std::vector<uint8_t> bytes(field == "-" ? 0 : from_decimal(field));
        for (size_t i = 0; i < bytes.size(); i++)
            bytes[i] = static_cast<uint8_t>(factor * i + first);
        return lend(use, field == "-", bytes);
    }

    uint32_t from_decimal(const std::string &field) const
    {
        bool plain = !field.empty() && field.size() <= 10 && (field == "0" || field[0] != '0') &&
                     field.find_first_not_of("0123456789") == std::string::npos;
        uint64_t value = plain ? std::stoull(field) : UINT64_MAX;
        if (value > UINT32_MAX)
            stop("not a number: " + field, not_a_request);
        return static_cast<uint32_t>(value);
    }

    // Parts, each of them hex, or hex and how often it is repeated.
    std::vector<uint8_t> from_parts(const std::string &field) const
    {
        std::vector<uint8_t> bytes;
        for (size_t start = 0; start <= field.size();) {
            size_t end = std::min(field.find('+', start), field.size());
            size_t star = std::min(field.find('*', start), end);
            size_t times = star == end ? 1 : from_decimal(field.substr(star + 1, end - star - 1));
            std::vector<uint8_t> part = from_hex(field.substr(start, star - start));
            bytes.reserve(bytes.size() + times * part.size());
            for (size_t i = 0; i < times; i++)
                bytes.insert(bytes.end(), part.begin(), part.end());
            start = end + 1;
        }
        return bytes;
    }

    std::vector<uint8_t> from_hex(const std::string &field) const
    {
        if (field.empty() || field.size() % 2 != 0)
            stop("a lent input is not lower-case hex", not_a_request);
        std::vector<uint8_t> bytes(field.size() / 2);
        for (size_t i = 0; i < bytes.size(); i++)
            bytes[i] = static_cast<uint8_t>(16 * digit(field[2 * i]) + digit(field[2 * i + 1]));
        return bytes;
    }

    int digit(char c) const
    {
        if ('0' <= c && c <= '9')
            return c - '0';
        if ('a' <= c && c <= 'f')
            return c - 'a' + 10;
        stop("a lent input is not lower-case hex", not_a_request);
    }

    // The request's number, from 1.
    uint64_t turn;
    const std::string &line;
    size_t at = 0;
    // A deque, since a lent buffer must stay where it is while more are lent.
    std::deque<Lent> lent;
};

// Each operation reads its request and returns what its call returns.
// An operation is there where the archive has its entry: tests/build says which.

uint32_t check(Request &request)
{
    uint32_t options = request.number();
    Lent &table = request.input();
    Lent &answer = request.answer_part();
    request.end();
    return simbolufa_check(table.data(), table.size(), options, answer.data(), answer.size());
}

#ifdef SIMBOLUFA_HAS_MEASURE
uint32_t measure(Request &request)
{
    uint32_t options = request.number();
    Lent &table = request.input();
    Lent &set = request.input();
    Lent &answer = request.answer_part();
    request.end();
    return simbolufa_measure(table.data(), table.size(), options, set.data(), set.size(), answer.data(),
                             answer.size());
}
#endif

#ifdef SIMBOLUFA_HAS_CHOOSE
uint32_t choose(Request &request)
{
    uint32_t options = request.number();
    uint32_t allowance = request.number();
    Lent &table = request.input();
    Lent &set = request.output();
    Lent &answer = request.answer_part();
    request.end();
    return simbolufa_choose(table.data(), table.size(), options, allowance, set.data(), set.size(),
                            answer.data(), answer.size());
}
#endif

#ifdef SIMBOLUFA_HAS_CONVERT
uint32_t convert(Request &request)
{
    uint32_t options = request.number();
    Lent &table = request.input();
    Lent &set = request.input();
    Lent &out = request.output();
    Lent &answer = request.answer_part();
    request.end();
    return simbolufa_convert(table.data(), table.size(), options, set.data(), set.size(), out.data(),
                             out.size(), answer.data(), answer.size());
}
#endif

#ifdef SIMBOLUFA_HAS_CONVERT_AFTER
uint32_t convert_after(Request &request)
{
    uint32_t options = request.number();
    uint32_t taken = request.number();
    Lent &table = request.input();
    Lent &set = request.input();
    Lent &out = request.output();
    Lent &answer = request.answer_part();
    request.end();
    return simbolufa_convert_after(table.data(), table.size(), options, taken, set.data(), set.size(),
                                   out.data(), out.size(), answer.data(), answer.size());
}
#endif

#ifdef SIMBOLUFA_HAS_ORIGIN
uint32_t origin(Request &request)
{
    uint32_t options = request.number();
    uint32_t clause = request.number();
    Lent &table = request.input();
    Lent &set = request.input();
    Lent &option_names = request.input();
    Lent &helper_names = request.input();
    Lent &line = request.output();
    Lent &answer = request.answer_part();
    request.end();
    return simbolufa_origin(table.data(), table.size(), options, set.data(), set.size(), clause,
                            option_names.data(), option_names.size(), helper_names.data(),
                            helper_names.size(), line.data(), line.size(), answer.data(), answer.size());
}
#endif

#ifdef SIMBOLUFA_HAS_ORIGINS
uint32_t origins(Request &request)
{
    uint32_t options = request.number();
    Lent &table = request.input();
    Lent &set = request.input();
    Lent &option_names = request.input();
    Lent &helper_names = request.input();
    Lent &lines = request.output();
    Lent &answer = request.answer_part();
    request.end();
    return simbolufa_origins(table.data(), table.size(), options, set.data(), set.size(),
                             option_names.data(), option_names.size(), helper_names.data(),
                             helper_names.size(), lines.data(), lines.size(), answer.data(),
                             answer.size());
}
#endif

#ifdef SIMBOLUFA_HAS_WRITE_DIMACS
uint32_t write_dimacs(Request &request)
{
    uint32_t variables = request.number();
    Lent &clauses = request.input();
    Lent &text = request.output();
    Lent &answer = request.answer_part();
    request.end();
    return simbolufa_write_dimacs(clauses.data(), clauses.size(), variables, text.data(), text.size(),
                                  answer.data(), answer.size());
}
#endif

#ifdef SIMBOLUFA_HAS_READ_DIMACS
uint32_t read_dimacs(Request &request)
{
    Lent &text = request.input();
    Lent &clauses = request.output();
    Lent &answer = request.answer_part();
    request.end();
    return simbolufa_read_dimacs(text.data(), text.size(), clauses.data(), clauses.size(), answer.data(),
                                 answer.size());
}
#endif

#ifdef SIMBOLUFA_HAS_READ_SAT
uint32_t read_sat(Request &request)
{
    Lent &text = request.input();
    Lent &table = request.output();
    Lent &answer = request.answer_part();
    request.end();
    return simbolufa_read_sat(text.data(), text.size(), table.data(), table.size(), answer.data(),
                              answer.size());
}
#endif

#ifdef SIMBOLUFA_HAS_TIDY
uint32_t tidy(Request &request)
{
    uint32_t variables = request.number();
    Lent &clauses = request.input();
    Lent &out = request.output();
    Lent &changes = request.output();
    Lent &answer = request.answer_part();
    request.end();
    return simbolufa_tidy(clauses.data(), clauses.size(), variables, out.data(), out.size(), changes.data(),
                          changes.size(), answer.data(), answer.size());
}
#endif

const std::map<std::string, uint32_t (*)(Request &)> operations = {
    {"check", check},
#ifdef SIMBOLUFA_HAS_MEASURE
    {"measure", measure},
#endif
#ifdef SIMBOLUFA_HAS_CHOOSE
    {"choose", choose},
#endif
#ifdef SIMBOLUFA_HAS_CONVERT
    {"convert", convert},
#endif
#ifdef SIMBOLUFA_HAS_CONVERT_AFTER
    {"convert_after", convert_after},
#endif
#ifdef SIMBOLUFA_HAS_ORIGIN
    {"origin", origin},
#endif
#ifdef SIMBOLUFA_HAS_ORIGINS
    {"origins", origins},
#endif
#ifdef SIMBOLUFA_HAS_WRITE_DIMACS
    {"write_dimacs", write_dimacs},
#endif
#ifdef SIMBOLUFA_HAS_READ_DIMACS
    {"read_dimacs", read_dimacs},
#endif
#ifdef SIMBOLUFA_HAS_READ_SAT
    {"read_sat", read_sat},
#endif
#ifdef SIMBOLUFA_HAS_TIDY
    {"tidy", tidy},
#endif
};

} // namespace

int main()
{
    std::ios::sync_with_stdio(false);
    std::string line;
    for (uint64_t turn = 1; std::getline(std::cin, line); turn++) {
        Request request(turn, line);
        auto operation = operations.find(request.word());
        if (operation == operations.end())
            request.stop("no such operation", not_a_request);
        uint32_t result = operation->second(request);
        std::cout << request.answered(result) << std::endl;
    }
    return std::cout ? 0 : fault;
}
