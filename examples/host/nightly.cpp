// The nightly pass: asks a solver, for each guard of a set, whether some choice of options compiles its branch.

#include "file.hpp"
#include "formula.hpp"
#include "guards.hpp"
#include "origins.hpp"
#include "report.hpp"
#include "shown.hpp"
#include "signals.hpp"
#include "solver.hpp"

#include <simbolufa.hpp>

#include <fcntl.h>
#include <unistd.h>

#include <algorithm>
#include <array>
#include <charconv>
#include <chrono>
#include <cstdio>
#include <exception>
#include <filesystem>
#include <new>
#include <optional>
#include <string>
#include <string_view>
#include <system_error>
#include <vector>

namespace fs = std::filesystem;

namespace {

constexpr uint32_t allowance = 1024;
constexpr size_t most_nodes = 1024;
constexpr int bad_usage = 2;

constexpr char usage[] = "nightly [--quiet] [--times] [--tidy] [--conflicts N] [--origins FOLDER [--names NAMES]] PATH...\n"
                         "\n"
                         "Says which branches can never be compiled. A PATH is a node file, a file of several node\n"
                         "files, a p sat file, or a folder of such files. guards.txt with index.tsv beside it is read by\n"
                         "its index. Hidden files and backups in a folder are passed over: `.x`, `x~`, `#x#`.\n"
                         "\n"
                         "The first lines say what a file or an indexed guard is: it is a p sat text where the first line\n"
                         "that does not begin with c begins with p and a space or a tab. A p sat file is one guard.\n"
                         "\n"
                         "  --quiet            only dead branches, refusals, and what is not decided, read, written or\n"
                         "                     named\n"
                         "  --times            how long each step took\n"
                         "  --tidy             takes out of the clauses what changes nothing, and tells it, before the\n"
                         "                     solver is asked\n"
                         "  --conflicts N      when the solver gives up on a guard, 1000000 if it is not given\n"
                         "  --origins FOLDER   a file for each guard that tells where its clauses come from\n"
                         "  --names NAMES      the names of options in these files\n"
                         "  --help             this text\n"
                         "\n"
                         "FOLDER is made, or is there and empty. It lies in no PATH. A guard's file is its name and .tsv,\n"
                         "with % and two hex digits for each byte but letters, digits and _ - . #. Each line of it is a\n"
                         "clause of the guard: number, origin node, helper or 0, `root`, `down` or `up`, number in that\n"
                         "part, literals. A helper is called after its node, [7]. Where an option has that name, or that\n"
                         "name behind a !, the helper is [[7]], and so on.\n"
                         "\n"
                         "NAMES is a folder of files PROJECT.txt, or one file for all guards. Line k is the name of option\n"
                         "k. Without --names it is the folder names beside the index, whose column `project` tells the\n"
                         "project. Where a project has no such file, options have their numbers as names.\n"
                         "\n"
                         "What is taken out by --tidy goes to standard error, one a line: name, `tidied`, the clause's\n"
                         "number, what, and a number. What is `tautology`, where a clause has a literal and its negation,\n"
                         "with 0; `repeat`, where an earlier clause that stays has the same literals, with that clause's\n"
                         "number; or `literal`, where a literal stands in its clause before, with its position. Numbers and\n"
                         "positions count from 0, as before anything is taken out. With --origins the other fields of the\n"
                         "clause's line in its file follow, and for `literal` of its literals this one. With --quiet these\n"
                         "lines are left out.\n"
                         "\n"
                         "Dead branches go to standard output, one a line: name, `never compiled`, source.\n"
                         "Refusals go to standard error, one a line: name, `refused`, number, place, source, FILE:LINE,\n"
                         "what is wrong. LINE is the line to mend, counted in the whole FILE. Where no one line is\n"
                         "wrong, it is the one on which the guard begins. The place of 17 is the byte, counted from 0,\n"
                         "and the column is said. Numbers, as they are looked at:\n"
                         "\n";

constexpr char exits[] = "\n"
                         "Exit status: 0 all guards converted and decided, 1 a guard refused or undecided,\n"
                         "2 bad usage, a path not read or a line not written, a guard without its file of origins,\n"
                         "128 and the number of a signal that ended the pass.\n";

// The refusals that a guard can meet here, in the order in which they are looked at.
constexpr uint32_t refusals[] = {SIMBOLUFA_REFUSED_NODE_FILE,    SIMBOLUFA_REFUSED_SAT_TEXT, SIMBOLUFA_REFUSED_NODES,
                                 SIMBOLUFA_REFUSED_TABLE_LENGTH, SIMBOLUFA_REFUSED_OPTIONS,  SIMBOLUFA_REFUSED_KIND,
                                 SIMBOLUFA_REFUSED_UNUSED_FIELD, SIMBOLUFA_REFUSED_CHILD,    SIMBOLUFA_REFUSED_SYMBOL,
                                 SIMBOLUFA_REFUSED_CLAUSES,      SIMBOLUFA_REFUSED_LITERALS};

std::string help()
{
    std::string text = usage;
    for (const uint32_t number : refusals)
        text += (number < 10 ? "   " : "  ") + std::to_string(number) + "  " + simbolufa_sentence(number) + "\n";
    return text + exits;
}

// What the command asks for.
struct Command {
    bool quiet = false;
    bool times = false;
    bool tidy = false;
    bool help = false;
    int conflicts = 1000000;
    // Empty where they are not given.
    fs::path origins;
    fs::path names;
    std::vector<const char *> paths;
};

// Tells how long it is since it was last asked.
class Stopwatch {
public:
    Duration lap()
    {
        const auto now = std::chrono::steady_clock::now();
        const Duration passed = now - last;
        last = now;
        return passed;
    }

private:
    std::chrono::steady_clock::time_point last = std::chrono::steady_clock::now();
};

// Takes guards one by one. Its buffers serve all of them.
//
// simbolufa.h says how much stack a call takes. The first thread of a program has more. A host that converts from other
// threads gives them as much.
class Pass : public GuardTaker {
public:
    // Without origins no file of them is written.
    Pass(Report &report, const Command &command, Origins *origins)
        : report(report), origins(origins), tidies(command.tidy), solver(command.conflicts)
    {
        if (tidies)
            spent.tidy.emplace();
        if (origins != nullptr)
            spent.origins.emplace();
    }

    void take(const Guard &guard) override
    {
        stop_if_caught();
        try {
            decide(guard);
        } catch (const Unreadable &fault) {
            report.missed(guard.name, fault.what());
        } catch (const std::bad_alloc &) {
            report.missed(guard.name, "there is not enough memory");
        }
    }

    void miss(const fs::path &path, const std::string &why) override { report.missed(path.string(), why); }

    void pass_over(const fs::path &) override { report.passed_over(); }

    bool is_names(const fs::path &path) const override { return origins != nullptr && origins->is_names(path); }

    const Times &times() const { return spent; }

private:
    void decide(const Guard &guard)
    {
        const simbolufa::answer told = convert(guard);
        if (!told.accepted())
            return report.refused(guard, told);
        const simbolufa::bytes converted{clauses.data(), needed};
        simbolufa::bytes asked = converted;
        // convert tells the variables first.
        if (tidies) {
            const simbolufa::answer tidied = simbolufa::tidied(converted, told.first, kept, changes);
            *spent.tidy += watch.lap();
            if (!tidied.accepted())
                return report.refused(guard, tidied);
            asked = kept;
        }
        const Verdict verdict = solver.ask(asked, told.first);
        spent.solve += watch.lap();
        // Whoever reads that a branch is dead finds the file there.
        std::string_view lines;
        if (origins != nullptr) {
            lines = origins->write(guard, formula, {set.data(), simbolufa::nodes_of(formula.table)}, converted);
            *spent.origins += watch.lap();
        }
        if (tidies)
            report.tidied(guard, changes, lines);
        switch (verdict) {
        case Verdict::live:
            return report.live();
        case Verdict::dead:
            return report.dead(guard);
        case Verdict::undecided:
            return report.undecided(guard);
        }
    }

    // From a text to clauses. The first refusal ends it. Throws Unreadable.
    simbolufa::answer convert(const Guard &guard)
    {
        // The time since the last guard went into finding this one.
        simbolufa::answer told = read_formula(guard, formula);
        spent.read += watch.lap();
        if (!told.accepted())
            return told;

        const simbolufa::room chosen{set.data(), simbolufa::nodes_of(formula.table)};
        told = simbolufa::choose(formula.table, formula.options, allowance, chosen);
        spent.choose += watch.lap();
        if (!told.accepted())
            return told;

        told = simbolufa::needed_bytes(formula.table, formula.options, chosen, needed);
        if (told.accepted()) {
            clauses.resize(std::max(clauses.size(), needed));
            told = simbolufa::convert(formula.table, formula.options, chosen, {clauses.data(), needed});
        }
        spent.convert += watch.lap();
        return told;
    }

    Report &report;
    Origins *const origins;
    const bool tidies;
    Formula formula;
    std::array<uint8_t, most_nodes> set{};
    std::vector<uint8_t> clauses;
    // How many bytes of `clauses` are those of the guard.
    size_t needed = 0;
    // What tidying leaves of them, and its lines.
    std::vector<uint8_t> kept;
    std::string changes;
    Solver solver;
    Times spent;
    Stopwatch watch;
};

// Reads the words of the command. Gives what is wrong with them, or nothing.
std::string read_words(int count, char **words, Command &command)
{
    bool only_paths = false;
    for (int at = 1; at < count; at++) {
        const std::string_view word = words[at];
        if (only_paths || word.substr(0, 1) != "-") {
            command.paths.push_back(words[at]);
        } else if (word == "--") {
            only_paths = true;
        } else if (word == "--quiet") {
            command.quiet = true;
        } else if (word == "--times") {
            command.times = true;
        } else if (word == "--tidy") {
            command.tidy = true;
        } else if (word == "--help") {
            command.help = true;
        } else if (word == "--conflicts") {
            const std::string_view number = ++at < count ? words[at] : "";
            const char *last = number.data() + number.size();
            const auto [end, error] = std::from_chars(number.data(), last, command.conflicts);
            if (error != std::errc() || end != last || command.conflicts < 0)
                return "--conflicts without a number";
        } else if (word == "--origins") {
            command.origins = ++at < count ? words[at] : "";
            if (command.origins.empty())
                return "--origins without a folder";
        } else if (word == "--names") {
            command.names = ++at < count ? words[at] : "";
            if (command.names.empty())
                return "--names without a folder or a file";
        } else {
            return "no such option: " + std::string(word);
        }
    }
    if (command.help)
        return "";
    if (!command.names.empty() && command.origins.empty())
        return "--names without --origins";
    return command.paths.empty() ? "no path is given" : "";
}

// Where a standard descriptor is closed, a file that is opened would take its place, and be written to. What is put there
// cannot be written.
void keep_standard_descriptors()
{
    for (const int descriptor : {STDIN_FILENO, STDOUT_FILENO, STDERR_FILENO})
        if (::fcntl(descriptor, F_GETFD) < 0)
            ::open("/dev/null", O_RDONLY);
}

int say_help()
{
    Output output(STDOUT_FILENO);
    output.write(help());
    return output.has_failed() ? bad_usage : 0;
}

// Whether a path is a folder's, or leads into it.
bool lies_in(const fs::path &path, const fs::path &folder)
{
    std::error_code fault;
    const fs::path inner = fs::weakly_canonical(path, fault);
    const fs::path outer = fault ? fs::path() : fs::canonical(folder, fault);
    return !fault && std::mismatch(outer.begin(), outer.end(), inner.begin(), inner.end()).first == outer.end();
}

// Makes the folder for origins. Throws Unwritable, before anything is read.
void make_origins(const Command &command, Report &report, std::optional<Origins> &origins)
{
    // The next pass would take the files for guards.
    for (const char *path : command.paths)
        if (lies_in(command.origins, path))
            throw Unwritable("it lies in " + shown(path) + ", and all files there are read as guards");
    std::error_code fault;
    if (!command.names.empty() && !fs::exists(command.names, fault))
        throw Unwritable("there are no names at " + shown(command.names.string()));
    origins.emplace(command.origins, command.names, report);
}

int run(const Command &command)
{
    Report report(command.quiet, command.tidy);
    std::optional<Origins> origins;
    try {
        if (!command.origins.empty())
            make_origins(command, report, origins);
    } catch (const Unwritable &fault) {
        std::fprintf(stderr, "nightly: no origins in %s: %s\n", shown(command.origins.string()).c_str(), fault.what());
        return bad_usage;
    }
    Pass pass(report, command, origins ? &*origins : nullptr);
    catch_signals();
    try {
        for (const char *path : command.paths)
            find_guards(path, pass);
        stop_if_caught();
    } catch (const Stopped &) {
        report.end_at(caught_signal());
        return 128 + caught_signal();
    }
    if (command.times)
        report.times(pass.times());
    report.end();
    return report.status();
}

} // namespace

int main(int count, char **words)
{
    keep_standard_descriptors();
    try {
        Command command;
        const std::string fault = read_words(count, words, command);
        if (!fault.empty()) {
            std::fprintf(stderr, "nightly: %s\n%s", fault.c_str(), help().c_str());
            return bad_usage;
        }
        return command.help ? say_help() : run(command);
    } catch (const std::exception &fault) {
        // The report is not complete, and nobody should take it for one.
        std::fprintf(stderr, "nightly: the pass did not end: %s\n", fault.what());
        return bad_usage;
    }
}
