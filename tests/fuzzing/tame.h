// Right tables, sets, clause bytes, lists of names and texts of formulas, made from any bytes, so that cases get past the
// checks.
#pragma once

#include "call.h"

namespace fuzzing {

constexpr size_t node_length = 5;
constexpr uint32_t most_variables = 40000, most_options = 32000;
constexpr size_t most_open = 64;

// A table of right nodes, made from any bytes.
inline Bytes tamed_table(Bytes table, uint32_t options)
{
    table.resize(table.size() / node_length * node_length);
    for (size_t number = 0; node_length * number < table.size(); number++) {
        uint8_t *node = &table[node_length * number];
        uint32_t a = node[1] | node[2] << 8, b = node[3] | node[4] << 8;
        uint8_t kind = node[0] % 8;
        if (number == 0 || (kind < 3 && options == 0))
            kind = options == 0 ? kind % 2 : kind % 3;
        if (kind < 2)
            a = 0;
        else if (kind == 2)
            a = 1 + a % std::min<uint32_t>(options, 65535);
        else
            a %= number;
        b = kind < 4 ? 0 : b % number;
        node[0] = kind;
        node[1] = static_cast<uint8_t>(a), node[2] = static_cast<uint8_t>(a >> 8);
        node[3] = static_cast<uint8_t>(b), node[4] = static_cast<uint8_t>(b >> 8);
    }
    return table;
}

// A right set for a right table, made from any bytes: a byte that is odd renames, where its node may be renamed.
inline Bytes tamed_set(Bytes bytes, const Bytes &table)
{
    size_t count = table.size() / node_length;
    bytes.resize(count);
    Bytes reached(count);
    if (count > 0)
        reached[count - 1] = 1;
    for (size_t number = count; number-- > 0;) {
        const uint8_t *node = &table[node_length * number];
        size_t a = node[1] | node[2] << 8, b = node[3] | node[4] << 8;
        if (node[0] >= 3 && reached[number])
            reached[a] = 1;
        if (node[0] >= 4 && reached[number])
            reached[b] = 1;
        bool may = node[0] >= 3 && reached[number] && number + 1 < count;
        bytes[number] = may ? bytes[number] & 1 : 0;
    }
    return bytes;
}

// Right clause bytes over so many variables, made from any bytes.
inline Bytes tamed_clauses(Bytes bytes, uint32_t variables)
{
    bytes.resize(bytes.size() / 4 * 4);
    for (size_t at = 0; at < bytes.size(); at += 4) {
        uint32_t word = number_at(bytes, at);
        uint32_t magnitude = at + 4 == bytes.size() ? 0 : (word >> 1) % (std::min(variables, most_variables) + 1);
        word = word & 1 ? 0 - magnitude : magnitude;
        for (size_t i = 0; i < 4; i++)
            bytes[at + i] = static_cast<uint8_t>(word >> (8 * i));
    }
    return bytes;
}

// A right list of so many names, made from any bytes: what stands between newlines, or a number where that is nothing.
inline Bytes tamed_names(const Bytes &bytes, size_t count)
{
    Bytes names;
    size_t at = 0;
    for (size_t number = 0; number < count; number++) {
        size_t start = names.size();
        for (; at < bytes.size() && bytes[at] != '\n'; at++)
            names.push_back(bytes[at] == '\t' ? ' ' : bytes[at]);
        at++;
        if (names.size() == start)
            for (char digit : std::to_string(number))
                names.push_back(static_cast<uint8_t>(digit));
        names.push_back('\n');
    }
    return names;
}

// A right text of a formula over so many options, that is written from the left.
class TamedFormula {
public:
    explicit TamedFormula(uint32_t options) : options(options), text("p sat " + std::to_string(options) + "\n") {}

    // Puts what a byte asks for, where it may stand: a symbol, an opening, a closing or white space.
    void put(uint8_t byte)
    {
        static const char *const openings[] = {"(", "-(", "*(", "+("};
        uint8_t kind = byte % 8, rest = byte / 8;
        if (kind < 2)
            put_symbol(kind == 1, rest);
        else if (kind < 6)
            put_opening(openings[kind - 2]);
        else if (kind == 6)
            put_closing();
        else
            text += " \t\r\n"[rest % 4];
    }

    // Closes all that is open.
    Bytes ended()
    {
        do {
            if (lacks_formula())
                put_least();
            put_closing();
        } while (!open.empty());
        return Bytes(text.begin(), text.end());
    }

private:
    // An open parenthesis, and how many formulas stand in it.
    struct Open {
        bool is_list;
        size_t formulas;
    };

    // Whether exactly one formula belongs here, and is not there yet.
    bool lacks_formula() const { return open.empty() ? !has_formula : !open.back().is_list && open.back().formulas == 0; }

    // Whether a formula may stand here, if it opens so many parentheses at once.
    bool may_stand(size_t opened) const
    {
        return open.size() + opened <= most_open && (lacks_formula() || (!open.empty() && open.back().is_list));
    }

    // Counts a formula, and parts it from the one before.
    void begin()
    {
        if (open.empty())
            has_formula = true;
        else if (open.back().formulas++ > 0)
            text += ' ';
    }

    void put_symbol(bool is_negated, uint8_t rest)
    {
        if (options == 0 || !may_stand(0))
            return;
        begin();
        // The first symbols, and the last ones.
        uint32_t symbol = rest % 2 == 0 ? 1 + rest % options : options - rest % options;
        text += (is_negated ? "-" : "") + std::to_string(symbol);
    }

    void put_opening(const std::string &opening)
    {
        bool is_list = opening[0] == '*' || opening[0] == '+';
        // Inside plain parentheses a formula follows. With no option it opens one more.
        if (!may_stand(is_list || options > 0 ? 1 : 2))
            return;
        begin();
        text += opening;
        open.push_back({is_list, 0});
    }

    void put_closing()
    {
        if (open.empty() || lacks_formula())
            return;
        open.pop_back();
        text += ')';
    }

    void put_least()
    {
        if (options > 0)
            return put_symbol(false, 0);
        put_opening("*(");
        put_closing();
    }

    uint32_t options;
    std::string text;
    std::vector<Open> open;
    bool has_formula = false;
};

// A right text of a formula, made from any bytes.
inline Bytes tamed_text(const Bytes &bytes, uint32_t options)
{
    TamedFormula formula(options % (most_options + 1));
    for (uint8_t byte : bytes)
        formula.put(byte);
    return formula.ended();
}

} // namespace fuzzing
