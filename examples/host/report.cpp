// Lines of the report, and its counts.

#include "report.hpp"

#include "refusal.hpp"
#include "shown.hpp"

#include <poll.h>
#include <unistd.h>

#include <algorithm>
#include <cerrno>
#include <cstddef>
#include <cstdio>

namespace {

constexpr std::chrono::milliseconds progress_interval{100};
// Lines that come one behind the other are said together, up to about so many bytes.
constexpr size_t longest_said = 65536;

// A line about a guard: its name, what is said of it, and its source where it has one.
std::string line_of(const Guard &guard, const std::string &said)
{
    const std::string line = shown(guard.name) + "\t" + said;
    return guard.source.empty() ? line : line + "\t" + shown(guard.source);
}

std::string in_seconds(Duration time, int digits)
{
    char text[64];
    std::snprintf(text, sizeof text, "%.*f s", digits, std::chrono::duration<double>(time).count());
    return text;
}

// Takes the next field off a line, with the tab behind it.
std::string_view take_field(std::string_view &line)
{
    const std::string_view field = line.substr(0, line.find('\t'));
    line.remove_prefix(std::min(line.size(), field.size() + 1));
    return field;
}

// The lines of all clauses of a guard, gone through for its changes, which rise. There may be none.
class OriginLines {
public:
    explicit OriginLines(std::string_view lines) : left(lines) {}

    // Where the clause of a change comes from, and its literals, or the one that goes, as fields behind tabs.
    std::string fields_of(const simbolufa::change &one)
    {
        if (left.empty())
            return "";
        if (clause != one.clause)
            go_to(one.clause);
        std::string fields = origin;
        if (one.what == simbolufa::changed::literal) {
            // A clause may have as many lines as literals, so they are not all in each.
            for (; position < one.number; position++)
                take_field(literals);
            return fields + "\t" + shown(literals.substr(0, literals.find('\t')));
        }
        while (!literals.empty())
            fields += "\t" + shown(take_field(literals));
        return fields;
    }

private:
    void go_to(uint32_t number)
    {
        for (; first < number; first++)
            left.remove_prefix(left.find('\n') + 1);
        clause = number;
        literals = left.substr(0, left.find('\n'));
        take_field(literals);
        // Node, helper, part, and the number in it.
        origin.clear();
        for (int field = 0; field < 4; field++)
            origin += "\t" + std::string(take_field(literals));
        position = 0;
    }

    // Lines that are not passed, and the number of the first one's clause.
    std::string_view left;
    uint32_t first = 0;
    // The clause that was last asked for, and its literals from a position on.
    std::optional<uint32_t> clause;
    std::string origin;
    std::string_view literals;
    uint32_t position = 0;
};

// Whether a write that took nothing may be made again.
bool may_go_on(int descriptor)
{
    if (errno == EINTR)
        return true;
    // A caller may have made a pipe of its own one that does not wait.
    struct pollfd one = {descriptor, POLLOUT, 0};
    return errno == EAGAIN && (::poll(&one, 1, -1) > 0 || errno == EINTR);
}

} // namespace

void Output::write(std::string_view text)
{
    while (!failed && !text.empty()) {
        const ssize_t count = ::write(descriptor, text.data(), text.size());
        if (count >= 0)
            text.remove_prefix(static_cast<size_t>(count));
        else
            failed = !may_go_on(descriptor);
    }
}

Report::Report(bool quiet, bool tidies)
    : is_quiet(quiet), has_progress(!quiet && isatty(STDERR_FILENO)), found(STDOUT_FILENO), told(STDERR_FILENO)
{
    if (tidies)
        taken_out.emplace();
}

void Report::live()
{
    live_guards++;
    progress();
}

void Report::dead(const Guard &guard)
{
    dead_guards++;
    say(found, line_of(guard, "never compiled"));
}

void Report::undecided(const Guard &guard)
{
    undecided_guards++;
    say(told, line_of(guard, "undecided"));
}

void Report::refused(const Guard &guard, const simbolufa::answer &answer)
{
    refused_guards[answer.number]++;
    say(told, refusal_line(guard, answer, sentence_of(guard, answer)));
}

void Report::missed(const std::string &path, const std::string &why)
{
    missed_paths++;
    say(told, shown(path) + "\tnot read\t" + shown(why));
}

void Report::passed_over()
{
    passed_paths++;
}

void Report::no_names(const std::string &whose, const std::string &why)
{
    say(told, shown(whose) + "\tno names\t" + shown(why) + ": options have their numbers as names");
}

void Report::tidied(const Guard &guard, simbolufa::bytes changes, std::string_view origins)
{
    const std::string name = shown(guard.name);
    OriginLines lines(origins);
    std::string text;
    simbolufa::bytes left = changes;
    for (simbolufa::change one; simbolufa::take_change(left, one); changes = left) {
        count(one.what);
        if (is_quiet)
            continue;
        // Between two lines stands a newline. The last one is that of what is said.
        if (!text.empty())
            text += '\n';
        text += name + "\ttidied\t";
        text.append(reinterpret_cast<const char *>(changes.data), changes.size - left.size - 1);
        text += lines.fields_of(one);
        // There may be a million lines.
        if (text.size() > longest_said) {
            say(told, text);
            text.clear();
        }
    }
    if (!text.empty())
        say(told, text);
}

void Report::without_origins()
{
    guards_without_origins++;
}

void Report::unwritten(const std::string &path, const std::string &why)
{
    guards_without_origins++;
    say(told, shown(path) + "\tnot written\t" + shown(why));
}

void Report::times(const Times &times)
{
    say(told, "read\t" + in_seconds(times.read, 3));
    say(told, "choose\t" + in_seconds(times.choose, 3));
    say(told, "convert\t" + in_seconds(times.convert, 3));
    if (times.tidy)
        say(told, "tidy\t" + in_seconds(*times.tidy, 3));
    say(told, "solve\t" + in_seconds(times.solve, 3));
    if (times.origins)
        say(told, "origins\t" + in_seconds(*times.origins, 3));
}

void Report::end()
{
    say_whether_written();
    if (!is_quiet)
        say(told, summary());
}

void Report::end_at(int signal)
{
    say_whether_written();
    say(told, "stopped by signal " + std::to_string(signal) + "; so far " + summary());
}

int Report::status() const
{
    if (missed_paths > 0 || guards_without_origins > 0 || found.has_failed() || told.has_failed())
        return 2;
    if (refusals() > 0 || undecided_guards > 0)
        return 1;
    return 0;
}

void Report::count(simbolufa::changed what)
{
    switch (what) {
    case simbolufa::changed::tautology:
        taken_out->tautologies++;
        return;
    case simbolufa::changed::repeat:
        taken_out->repeats++;
        return;
    case simbolufa::changed::literal:
        taken_out->literals++;
        return;
    }
}

uint64_t Report::refusals() const
{
    uint64_t sum = 0;
    for (const auto &[number, count] : refused_guards)
        sum += count;
    return sum;
}

uint64_t Report::guards() const
{
    return live_guards + dead_guards + undecided_guards + refusals();
}

std::string Report::counts() const
{
    std::string text = std::to_string(guards()) + " guards: " + std::to_string(live_guards) + " live, " +
                       std::to_string(dead_guards) + " never compiled, " + std::to_string(refusals()) + " refused";
    const char *before = " (";
    for (const auto &[number, count] : refused_guards) {
        text += before + std::to_string(number) + ": " + std::to_string(count);
        before = ", ";
    }
    if (!refused_guards.empty())
        text += ")";
    if (undecided_guards > 0)
        text += ", " + std::to_string(undecided_guards) + " undecided";
    if (missed_paths > 0)
        text += ", " + std::to_string(missed_paths) + " not read";
    if (passed_paths > 0)
        text += ", " + std::to_string(passed_paths) + " passed over";
    if (guards_without_origins > 0)
        text += ", " + std::to_string(guards_without_origins) + " without origins";
    if (taken_out)
        text += ", taken out: " + std::to_string(taken_out->tautologies) + " tautologies, " +
                std::to_string(taken_out->repeats) + " repeats, " + std::to_string(taken_out->literals) + " literals";
    return text;
}

std::string Report::summary() const
{
    return counts() + "; " + in_seconds(std::chrono::steady_clock::now() - began, 2);
}

void Report::say(Output &output, const std::string &lines)
{
    if (is_shown)
        told.write("\r\033[K");
    is_shown = false;
    output.write(lines + "\n");
}

void Report::say_whether_written()
{
    if (found.has_failed())
        say(told, "standard output was not written");
}

void Report::progress()
{
    if (!has_progress)
        return;
    const auto now = std::chrono::steady_clock::now();
    if (now - last_shown < progress_interval)
        return;
    last_shown = now;
    is_shown = true;
    told.write("\r" + counts());
}
