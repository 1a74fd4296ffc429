// Branches inside branches: asks a solver whether some choice of options compiles the innermost one.
//
// It is compiled where the guards of all of them hold. They are converted one after the other by one `together`, so that
// their clauses share the project's options and no helper. Then all clauses are solved together.

#include "file.hpp"
#include "formula.hpp"
#include "guard_text.hpp"
#include "guards.hpp"
#include "refusal.hpp"
#include "shown.hpp"
#include "solver.hpp"

#include <simbolufa.hpp>

#include <cstdint>
#include <cstdio>
#include <exception>
#include <optional>
#include <stdexcept>
#include <string>
#include <string_view>
#include <vector>

namespace {

constexpr uint32_t allowance = 1024;
constexpr uint32_t most_options = 32000;
constexpr int most_conflicts = 1000000;
// Exit status, beside 0.
constexpr int refused_or_undecided = 1;
constexpr int not_asked = 2;

constexpr char help[] = "nested OUTERMOST [INNER...]\n"
                        "\n"
                        "Says whether the innermost of branches that stand inside each other can ever be compiled.\n"
                        "Each word is the node file or the p sat file of a branch's own guard. All have the same option\n"
                        "count.\n"
                        "\n"
                        "Exit status: 0 decided, 1 a guard refused or the solver gave up, 2 bad usage or a file\n"
                        "that cannot be read.\n";

// The guards of branches inside each other, from the outermost in.
class Nest {
public:
    explicit Nest(uint32_t options) : options(options), guards(options) {}

    // Converts one more guard. The answer is that of convert, or the first refusal. Throws where it is of another project.
    simbolufa::answer add(const Formula &guard)
    {
        if (guard.options != options)
            throw std::runtime_error("the option counts differ, so the guards are not of one project");
        std::vector<uint8_t> set(simbolufa::nodes_of(guard.table));
        simbolufa::answer told = simbolufa::choose(guard.table, options, allowance, set);
        size_t needed = 0;
        if (told)
            told = simbolufa::needed_bytes(guard.table, options, set, needed);
        if (!told)
            return told;
        // The clauses of all guards stand one behind the other.
        const size_t before = clauses.size();
        clauses.resize(before + needed);
        return guards.convert(guard.table, set, {clauses.data() + before, needed});
    }

    Verdict ask() const { return Solver(most_conflicts).ask(clauses, guards.variables()); }

private:
    uint32_t options;
    simbolufa::together guards;
    std::vector<uint8_t> clauses;
};

int say(Verdict verdict, int count)
{
    switch (verdict) {
    case Verdict::live:
        std::printf("%d guards together: live\n", count);
        return 0;
    case Verdict::dead:
        std::printf("%d guards together: never compiled\n", count);
        return 0;
    case Verdict::undecided:
        break;
    }
    std::printf("%d guards together: undecided\n", count);
    return refused_or_undecided;
}

void say_refusal(const Guard &guard, const simbolufa::answer &told, uint32_t options)
{
    // A refusal of the options may be about variables, and then no line of this guard's file is wrong.
    const bool is_over = told.number == SIMBOLUFA_REFUSED_OPTIONS && options <= most_options;
    const std::string said = is_over ? "the guards before it take variables over 32,000" : sentence_of(guard, told);
    std::fprintf(stderr, "%s\n", refusal_line(guard, told, said).c_str());
}

int run(int count, char **paths)
{
    Formula formula;
    std::optional<Nest> nest;
    for (int at = 0; at < count; at++) {
        File file(paths[at]);
        GuardText text;
        for (std::string_view part; !(part = file.read()).empty();)
            text.add(part);
        const Guard guard{paths[at], "", paths[at], 1, text.kept(), "", text.is_sat(), text.is_cut()};
        simbolufa::answer told = read_formula(guard, formula);
        if (told) {
            if (!nest)
                nest.emplace(formula.options);
            told = nest->add(formula);
        }
        if (!told) {
            say_refusal(guard, told, formula.options);
            return refused_or_undecided;
        }
        std::printf("%s\t%u clauses\t%u variables so far\n", shown(paths[at]).c_str(), told.second, told.first);
    }
    return say(nest->ask(), count);
}

} // namespace

int main(int count, char **words)
{
    if (count < 2 || words[1][0] == '-') {
        std::fputs(help, stderr);
        return not_asked;
    }
    try {
        const int status = run(count - 1, words + 1);
        return std::fflush(stdout) == 0 ? status : not_asked;
    } catch (const std::exception &fault) {
        std::fflush(stdout);
        std::fprintf(stderr, "nested: %s\n", fault.what());
        return not_asked;
    }
}
