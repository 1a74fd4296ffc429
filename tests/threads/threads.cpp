// Calls all entries from 16 threads at once, and compares what each thread is told with what one thread was told before.
//
// All threads lend the same tables, sets, clause bytes, names and texts to be read, and each lends buffers of its own to
// be written. With the word `race` two threads lend one buffer to be written, and with `past` a buffer is lent as longer
// than it is: a sanitizer that looks into the library must see both.

#include <simbolufa.hpp>

#include <algorithm>
#include <atomic>
#include <cstddef>
#include <cstdint>
#include <cstdio>
#include <cstring>
#include <string>
#include <string_view>
#include <thread>
#include <vector>

// Newer compilers ask the sanitizer's library for these. An older library has only what they stand for.
#ifdef __SANITIZE_THREAD__
extern "C" {
void *__tsan_memcpy(void *to, const void *from, size_t length)
{
    return std::memcpy(to, from, length);
}
void *__tsan_memmove(void *to, const void *from, size_t length)
{
    return std::memmove(to, from, length);
}
void *__tsan_memset(void *to, int byte, size_t length)
{
    return std::memset(to, byte, length);
}
}
#endif

namespace {

using Bytes = std::vector<uint8_t>;

constexpr int thread_count = 16;
constexpr int rounds = 6;
constexpr uint32_t options = 40;

// What all threads read.
struct Guard {
    Bytes table;
    Bytes set;
    Bytes clauses;
    // The clauses, and all of them once more.
    Bytes twice;
    std::string text;
    // A p sat text, which is of another guard.
    std::string sat;
    std::string option_names;
    std::string helper_names;
    // Where the clauses come from.
    std::string lines;
};

// All that the entries say of a guard, each answer and each buffer.
struct Told {
    std::vector<uint32_t> numbers;
    std::vector<Bytes> buffers;

    void add(const simbolufa::answer &answer, const Bytes &buffer = {})
    {
        for (const uint32_t number : {answer.number, answer.place, answer.first, answer.second})
            numbers.push_back(number);
        buffers.push_back(buffer);
    }

    bool operator==(const Told &other) const { return numbers == other.numbers && buffers == other.buffers; }
};

void append(Bytes &table, uint8_t kind, size_t a, size_t b)
{
    for (const size_t byte : {size_t{kind}, a & 255, a >> 8, b & 255, b >> 8})
        table.push_back(static_cast<uint8_t>(byte));
}

// Symbols, then operators of changing kinds over nodes below them. Every node but the root is of use.
Bytes table_of(size_t nodes)
{
    Bytes table;
    for (size_t node = 0; node < nodes; node++) {
        const size_t kind = 3 + node % 5;
        if (node < nodes / 2)
            append(table, 2, 1 + node % options, 0);
        else
            append(table, static_cast<uint8_t>(kind), node - 1, kind == 3 ? 0 : node - nodes / 2);
    }
    return table;
}

// Asks every entry about a guard, and some of them about inputs that they refuse.
Told ask(const Guard &guard, uint32_t allowance)
{
    Told told;
    Bytes set(simbolufa::nodes_of(guard.table), 9);
    Bytes clauses(guard.clauses.size(), 9);
    Bytes text(guard.text.size(), 9);
    told.add(simbolufa::check(guard.table, options));
    told.add(simbolufa::check(guard.table, 1));
    told.add(simbolufa::measure(guard.table, options, guard.set));
    told.add(simbolufa::choose(guard.table, options, allowance, set), set);
    told.add(simbolufa::convert(guard.table, options, guard.set, clauses), clauses);
    told.add(simbolufa::convert(guard.table, options, guard.set, {}));
    told.add(simbolufa::convert_after(guard.table, options, options + 900, guard.set, clauses), clauses);
    told.add(simbolufa::convert_after(guard.table, options, options - 1, guard.set, clauses));
    const std::string &names = guard.option_names;
    const std::string &helpers = guard.helper_names;
    Bytes lines(guard.lines.size(), 9);
    told.add(simbolufa::origins(guard.table, options, guard.set, names, helpers, lines), lines);
    told.add(simbolufa::origins(guard.table, options, guard.set, helpers, names, lines));
    told.add(simbolufa::origin(guard.table, options, guard.set, allowance % 2, names, helpers, lines), lines);
    told.add(simbolufa::origin(guard.table, options, guard.set, 65535, names, helpers, lines));
    told.add(simbolufa::write_dimacs(guard.clauses, 2000, text), text);
    told.add(simbolufa::write_dimacs(guard.clauses, 1, text));
    told.add(simbolufa::read_dimacs(guard.text, clauses), clauses);
    told.add(simbolufa::read_dimacs(guard.text.substr(1), clauses));
    Bytes table(simbolufa::longest_table, 9);
    told.add(simbolufa::read_sat(guard.sat, table), table);
    told.add(simbolufa::read_sat(guard.sat.substr(allowance % 4 + 1), table));
    Bytes kept(guard.clauses.size(), 9);
    Bytes changes(6 * guard.twice.size(), 9);
    told.add(simbolufa::tidy(guard.twice, 2000, kept, changes), kept);
    told.add(simbolufa::tidy(guard.clauses, 2000, kept, changes), changes);
    told.add(simbolufa::tidy(guard.twice, 2000, kept, {}));
    told.add(simbolufa::tidy(guard.twice, 1, kept, changes));
    return told;
}

// A p sat text: a list of so many options, some of them negated and some in a list of their own.
std::string sat_of(size_t members)
{
    std::string text = "c a guard\np sat " + std::to_string(options) + "\n*(";
    for (size_t member = 1; member <= members; member++) {
        const std::string option = std::to_string(1 + member % options);
        text += member % 3 == 0 ? " +(" + option + " -(" + option + "))" : (member % 2 == 0 ? " -" : " ") + option;
    }
    return text + ")\n";
}

// A name for each of so many variables.
std::string names_of(char letter, size_t count)
{
    std::string names;
    for (size_t number = 1; number <= count; number++)
        names += letter + std::to_string(number) + "\n";
    return names;
}

std::vector<Guard> guards()
{
    std::vector<Guard> all;
    for (const size_t nodes : {2u, 9u, 24u, 60u}) {
        Guard guard;
        guard.table = table_of(nodes);
        guard.set.resize(nodes);
        size_t needed = 0;
        if (!simbolufa::choose(guard.table, options, 1024, guard.set) ||
            !simbolufa::needed_bytes(guard.table, options, guard.set, needed))
            continue;
        guard.clauses.resize(needed);
        if (!simbolufa::convert(guard.table, options, guard.set, guard.clauses))
            continue;
        guard.twice = guard.clauses;
        guard.twice.insert(guard.twice.end(), guard.clauses.begin(), guard.clauses.end());
        guard.text.resize(simbolufa::text_bytes(guard.clauses, 2000));
        guard.sat = sat_of(nodes);
        guard.option_names = names_of('o', options);
        guard.helper_names = names_of('h', static_cast<size_t>(std::count(guard.set.begin(), guard.set.end(), 1)));
        if (simbolufa::write_dimacs(guard.clauses, 2000, guard.text) &&
            simbolufa::origin_lines(guard.table, options, guard.set, guard.option_names, guard.helper_names,
                                    guard.lines))
            all.push_back(guard);
    }
    return all;
}

template <class Work> void in_threads(int count, Work work)
{
    std::vector<std::thread> threads;
    for (int number = 0; number < count; number++)
        threads.emplace_back(work, number);
    for (std::thread &thread : threads)
        thread.join();
}

int run()
{
    constexpr uint32_t allowances[] = {0, 1, 3, 1024};
    const std::vector<Guard> all = guards();
    std::vector<Told> expected;
    for (const Guard &guard : all)
        for (const uint32_t allowance : allowances)
            expected.push_back(ask(guard, allowance));
    std::atomic<int> ready{0};
    std::atomic<int> asked{0};
    std::atomic<int> wrong{0};
    in_threads(thread_count, [&](int number) {
        // They begin together.
        for (ready++; ready < thread_count;)
            std::this_thread::yield();
        for (int turn = 0; turn < rounds; turn++)
            for (size_t at = 0; at < expected.size(); at++) {
                // Each thread has an order of its own.
                const size_t one = (at * 5 + static_cast<size_t>(number)) % expected.size();
                asked++;
                if (!(ask(all[one / 4], allowances[one % 4]) == expected[one]))
                    wrong++;
            }
    });
    const bool is_all = all.size() == 4 && asked == thread_count * rounds * 16;
    std::printf("threads: %d guards asked, %d wrong\n", asked.load(), is_all ? wrong.load() : 1);
    return is_all && wrong == 0 ? 0 : 1;
}

// Nothing sets an order between the two.
void race()
{
    const Bytes table = table_of(60);
    Bytes set(60);
    in_threads(2, [&](int) { static_cast<void>(simbolufa::choose(table, options, 1024, set)); });
}

void past()
{
    const Bytes table = table_of(60);
    const Bytes set(60);
    const Bytes lent(40);
    std::printf("%u\n", simbolufa::measure(table, options, {lent.data(), set.size()}).number);
}

} // namespace

int main(int count, char **words)
{
    const std::string_view word = count > 1 ? words[1] : "";
    if (word == "race")
        race();
    else if (word == "past")
        past();
    else
        return run();
    return 0;
}
