// Measures the deepest stack of each entry. A thread runs on a painted stack, and the lowest changed byte shows how
// deep it went.

#include "simbolufa.h"

#include <algorithm>
#include <cstdint>
#include <cstdio>
#include <cstdlib>
#include <functional>
#include <pthread.h>
#include <string>
#include <vector>

namespace {

constexpr size_t stack_size = size_t(16) << 20;
constexpr uint8_t paint = 0xa5;
constexpr size_t most_nodes = 1024;
constexpr uint8_t symbol = 2;

struct Run {
    const std::function<uint32_t()> &call;
    const uint8_t *stack;
    uint32_t result;
    size_t depth;
};

// Makes the call, and looks before it returns how far below its own frame the stack has changed.
void *run(void *argument)
{
    Run &run = *static_cast<Run *>(argument);
    run.result = run.call();
    const uint8_t *lowest = run.stack;
    while (*lowest == paint)
        lowest++;
    run.depth = static_cast<uint8_t *>(__builtin_frame_address(0)) - lowest;
    return nullptr;
}

// Makes a call that must be accepted, on a painted stack of its own. Gives the bytes below the caller's frame.
size_t measured(const std::function<uint32_t()> &call)
{
    static uint8_t *stack = static_cast<uint8_t *>(std::aligned_alloc(4096, stack_size));
    std::fill(stack, stack + stack_size, paint);
    Run made{call, stack, 0, 0};
    pthread_attr_t attributes;
    pthread_t thread;
    if (stack == nullptr || pthread_attr_init(&attributes) != 0 ||
        pthread_attr_setstack(&attributes, stack, stack_size) != 0 ||
        pthread_create(&thread, &attributes, run, &made) != 0 || pthread_join(thread, nullptr) != 0) {
        std::fprintf(stderr, "stack: no thread\n");
        std::exit(1);
    }
    pthread_attr_destroy(&attributes);
    if (made.result != SIMBOLUFA_ACCEPTED) {
        std::fprintf(stderr, "stack: refused with %u\n", made.result);
        std::exit(1);
    }
    return made.depth;
}

using Bytes = std::vector<uint8_t>;

void push(Bytes &table, uint8_t kind, size_t a, size_t b)
{
    table.insert(table.end(), {kind, uint8_t(a), uint8_t(a >> 8), uint8_t(b), uint8_t(b >> 8)});
}

// Where the node before stands in a node of a chain.
enum class Nested { only, left, right };

// Nodes of one kind, each over the node before it, the lowest over a symbol. Where they have two children, the other
// one is node 0: the symbol or, before it, a constant. A not may be the root above them.
struct Chain {
    std::string name;
    uint8_t kind;
    Nested nested;
    uint8_t other = symbol;
    bool below_not = false;
};

const std::vector<Chain> chains = {
    {"nots", 3, Nested::only},
    {"ands, left-nested, with a symbol", 4, Nested::left},
    {"ands, right-nested, with a symbol", 4, Nested::right},
    {"ands below a not, left-nested", 4, Nested::left, symbol, true},
    {"ands below a not, right-nested", 4, Nested::right, symbol, true},
    {"ors, left-nested, with a symbol", 5, Nested::left},
    {"ors, right-nested, with a symbol", 5, Nested::right},
    {"ors, left-nested, with false", 5, Nested::left, 0},
    {"implications to a symbol", 6, Nested::left},
    {"implications from a symbol", 6, Nested::right},
    {"equivalences, left-nested, with true", 7, Nested::left, 1},
    {"equivalences, right-nested, with true", 7, Nested::right, 1},
    {"equivalences, left-nested, with false", 7, Nested::left, 0},
    {"equivalences, right-nested, with false", 7, Nested::right, 0},
};

// A table of so many nodes. All are nested in each other, but for node 0 where it is a constant.
Bytes table_of(const Chain &chain, size_t count)
{
    Bytes table;
    if (chain.other != symbol)
        push(table, chain.other, 0, 0);
    push(table, symbol, 1, 0);
    while (table.size() < 5 * count) {
        size_t before = table.size() / 5 - 1;
        if (chain.below_not && before + 2 == count) {
            push(table, 3, before, 0);
            break;
        }
        bool right = chain.nested == Nested::right;
        push(table, chain.kind, right ? 0 : before, right ? before : 0);
    }
    return table;
}

// What is lent beside a table. It is made before a call, so that the call's own stack is measured.
Bytes answer(SIMBOLUFA_ANSWER_LENGTH), empty_set(most_nodes), chosen_set(most_nodes), out(size_t(4) << 20);

uint32_t check(const Bytes &table)
{
    return simbolufa_check(table.data(), table.size(), 1, answer.data(), answer.size());
}

uint32_t measure(const Bytes &table)
{
    return simbolufa_measure(table.data(), table.size(), 1, empty_set.data(), table.size() / 5, answer.data(),
                             answer.size());
}

uint32_t choose(const Bytes &table)
{
    return simbolufa_choose(table.data(), table.size(), 1, most_nodes, chosen_set.data(), table.size() / 5,
                            answer.data(), answer.size());
}

uint32_t convert(const Bytes &table)
{
    return simbolufa_convert(table.data(), table.size(), 1, empty_set.data(), table.size() / 5, out.data(),
                             out.size(), answer.data(), answer.size());
}

uint32_t convert_after(const Bytes &table)
{
    return simbolufa_convert_after(table.data(), table.size(), 1, 9, empty_set.data(), table.size() / 5, out.data(),
                                   out.size(), answer.data(), answer.size());
}

// The one option's name. Nothing is renamed, so no helper has one.
const Bytes names = {'A', '\n'};

uint32_t origin(const Bytes &table)
{
    return simbolufa_origin(table.data(), table.size(), 1, empty_set.data(), table.size() / 5, 0, names.data(), names.size(),
                            nullptr, 0, out.data(), out.size(), answer.data(), answer.size());
}

uint32_t origins(const Bytes &table)
{
    return simbolufa_origins(table.data(), table.size(), 1, empty_set.data(), table.size() / 5, names.data(), names.size(),
                             nullptr, 0, out.data(), out.size(), answer.data(), answer.size());
}

size_t measured_with(uint32_t (*entry)(const Bytes &), const Bytes &table)
{
    return measured([&] { return entry(table); });
}

// Clause bytes to tidy.
struct Clauses {
    std::string name;
    Bytes bytes;

    void put(uint32_t number)
    {
        bytes.insert(bytes.end(), {uint8_t(number), uint8_t(number >> 8), uint8_t(number >> 16), uint8_t(number >> 24)});
    }
};

// No clause, as many as there may be, and one of as many literals as there may be.
std::vector<Clauses> lists()
{
    constexpr uint32_t most_clauses = 65534, most_literals = 999999, most_variables = 40000;
    Clauses none{"no clause", {}}, different{"65,534 different clauses", {}}, same{"65,534 clauses that are the same", {}};
    for (uint32_t clause = 0; clause < most_clauses; clause++) {
        for (uint32_t literal : {1 + clause % 256, 1000 + clause / 256, most_variables, 0u})
            different.put(literal);
        for (uint32_t literal : {1u, most_variables, 0u})
            same.put(literal);
    }
    Clauses one{"one clause of 999,999 literals", {}}, tautology{"the same with a negation", {}};
    for (uint32_t literal = 1; literal < most_literals; literal++)
        one.put(1 + literal % most_variables);
    tautology.bytes = one.bytes;
    one.put(1);
    tautology.put(0u - 1);
    one.put(0);
    tautology.put(0);
    return {none, different, same, one, tautology};
}

size_t measured_tidying(const Clauses &list)
{
    // Made before the call, so that the call's own stack is measured. No line has more than 21 bytes.
    static Bytes kept, changes;
    kept.resize(list.bytes.size());
    changes.resize(list.bytes.size() / 4 * 21);
    return measured([&] {
        return simbolufa_tidy(list.bytes.data(), list.bytes.size(), 40000, kept.data(), kept.size(), changes.data(),
                              changes.size(), answer.data(), answer.size());
    });
}

// A symbol inside as many parentheses as may be open, of these kinds.
std::string nested_formula(const std::string &opening)
{
    constexpr size_t most_open = 64;
    size_t each = std::count(opening.begin(), opening.end(), '('), open = 0;
    std::string formula;
    for (; each > 0 && open + each <= most_open; open += each)
        formula += opening;
    return formula + "1" + std::string(open, ')');
}

size_t measured_reading(const std::string &formula)
{
    std::string written = "p sat 1\n" + formula;
    Bytes text(written.begin(), written.end());
    return measured([&] {
        return simbolufa_read_sat(text.data(), text.size(), out.data(), out.size(), answer.data(), answer.size());
    });
}

} // namespace

int main()
{
    constexpr size_t half = most_nodes / 2;
    std::printf("the stack below the caller, in bytes; nothing called: %zu\n", measured([] { return 0; }));
    std::printf("  %-38s  check  measure  choose  convert  convert  convert,     convert_after  origin  origins\n",
                "tables of nested nodes");
    std::printf("  %-38s  %5zu  %7zu  %6zu  %7zu  %7zu  a node more  %13zu  %6zu  %7zu\n", "", most_nodes, most_nodes,
                most_nodes, half, most_nodes, most_nodes, most_nodes, most_nodes);
    for (const Chain &chain : chains) {
        Bytes less = table_of(chain, half), more = table_of(chain, most_nodes);
        size_t shallow = measured_with(convert, less), deep = measured_with(convert, more);
        std::printf("  %-38s  %5zu  %7zu  %6zu  %7zu  %7zu  %11.1f  %13zu  %6zu  %7zu\n", chain.name.c_str(),
                    measured_with(check, more), measured_with(measure, more), measured_with(choose, more), shallow, deep,
                    (double(deep) - double(shallow)) / half, measured_with(convert_after, more),
                    measured_with(origin, more), measured_with(origins, more));
    }
    Bytes leaf;
    push(leaf, 2, 1, 0);
    std::printf("  %-38s  %5zu  %7zu  %6zu  %7zu  %7s  %11s  %13zu  %6zu  %7zu\n", "one symbol", measured_with(check, leaf),
                measured_with(measure, leaf), measured_with(choose, leaf), measured_with(convert, leaf), "", "",
                measured_with(convert_after, leaf), measured_with(origin, leaf), measured_with(origins, leaf));
    // As many names as there can be.
    constexpr uint32_t most_options = 32000;
    Bytes many;
    for (uint32_t option = 0; option < most_options; option++)
        many.insert(many.end(), names.begin(), names.end());
    size_t one = measured([&] {
        return simbolufa_origin(leaf.data(), leaf.size(), most_options, empty_set.data(), 1, 0, many.data(), many.size(), nullptr,
                                0, out.data(), out.size(), answer.data(), answer.size());
    });
    size_t all = measured([&] {
        return simbolufa_origins(leaf.data(), leaf.size(), most_options, empty_set.data(), 1, many.data(), many.size(), nullptr,
                                 0, out.data(), out.size(), answer.data(), answer.size());
    });
    std::printf("  one symbol of %u options: origin %zu, origins %zu\n", most_options, one, all);

    // A clause of the literals -1 and 40,000, over and over.
    constexpr size_t clause_count = 10000;
    Bytes clauses;
    for (size_t i = 0; i < clause_count; i++)
        clauses.insert(clauses.end(), {255, 255, 255, 255, 0x40, 0x9c, 0, 0, 0, 0, 0, 0});
    std::string written = "p cnf 40000 " + std::to_string(clause_count) + "\n";
    for (size_t i = 0; i < clause_count; i++)
        written += "-1 40000 0\n";
    Bytes text(written.begin(), written.end());
    size_t writing = measured([&] {
        return simbolufa_write_dimacs(clauses.data(), clauses.size(), 40000, text.data(), text.size(), answer.data(),
                                      answer.size());
    });
    size_t reading = measured([&] {
        return simbolufa_read_dimacs(text.data(), text.size(), clauses.data(), clauses.size(), answer.data(),
                                     answer.size());
    });
    std::printf("  %zu clauses: write_dimacs %zu, read_dimacs %zu\n", clause_count, writing, reading);

    // Lists of clauses, at the limits of both kinds.
    std::printf("  %-38s  %5s\n", "lists of clauses", "tidy");
    for (const Clauses &list : lists())
        std::printf("  %-38s  %5zu\n", list.name.c_str(), measured_tidying(list));

    // Texts of formulas, as deep as they may be, and flat ones.
    std::printf("  %-38s  read_sat\n", "texts of formulas");
    for (const std::string opening : {"(", "*(", "-(", "*(1 ", "(*(1 -(+(", ""})
        std::printf("  %-38s  %8zu\n", opening.empty() ? "one symbol" : ("64 open: " + opening).c_str(),
                    measured_reading(nested_formula(opening)));
    std::string list = "*(1";
    for (size_t i = 1; i < most_nodes / 2; i++)
        list += " 1";
    std::printf("  %-38s  %8zu\n", "a list of 1,023 nodes", measured_reading(list + ")"));
}
