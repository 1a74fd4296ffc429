// What the pass tells: dead branches on standard output, all else on standard error.

#ifndef REPORT_HPP
#define REPORT_HPP

#include "guards.hpp"

#include <simbolufa.hpp>

#include <chrono>
#include <cstdint>
#include <map>
#include <optional>
#include <string>
#include <string_view>

using Duration = std::chrono::steady_clock::duration;

// How long each step took, over all guards.
struct Times {
    Duration read{};
    Duration choose{};
    Duration convert{};
    // Where clauses are tidied.
    std::optional<Duration> tidy;
    Duration solve{};
    // Where origins are written.
    std::optional<Duration> origins;
};

// What was taken out of clauses, over all guards.
struct TakenOut {
    uint64_t tautologies = 0;
    uint64_t repeats = 0;
    uint64_t literals = 0;
};

// A descriptor that lines are written to, each at once, so that none is lost where the pass does not end.
class Output {
public:
    explicit Output(int descriptor) : descriptor(descriptor) {}

    // After a line that was not written, or only in part, nothing more is.
    void write(std::string_view text);
    bool has_failed() const { return failed; }

private:
    const int descriptor;
    bool failed = false;
};

class Report {
public:
    // A quiet report has no progress line, no summary, and no lines of what was taken out. `tidies` says whether it counts that.
    Report(bool quiet, bool tidies);

    void live();
    void dead(const Guard &guard);
    void undecided(const Guard &guard);
    void refused(const Guard &guard, const simbolufa::answer &answer);
    void missed(const std::string &path, const std::string &why);
    void passed_over();
    // Options have their numbers as names.
    void no_names(const std::string &whose, const std::string &why);
    // Something was taken out of a guard's clauses, or nothing. `changes` are the lines that tell it. `origins` are the lines of
    // all its clauses, where it has a file of them.
    void tidied(const Guard &guard, simbolufa::bytes changes, std::string_view origins);
    // A guard has no file of origins, since its names are wrong, which was said of them.
    void without_origins();
    // It has none, since that cannot be written.
    void unwritten(const std::string &path, const std::string &why);

    void times(const Times &times);
    // Says what was found.
    void end();
    // Says what was found before a signal. That has a summary even where the report is quiet.
    void end_at(int signal);

    // For the shell: 0 where every guard was converted and decided, 1 where one was not, 2 where something was not read
    // or not written, origins too. A dead branch is a finding and no failure.
    int status() const;

private:
    void count(simbolufa::changed what);
    uint64_t refusals() const;
    uint64_t guards() const;
    // The summary, without the time.
    std::string counts() const;
    std::string summary() const;
    // Writes a line, or several, in place of the progress line where that stands.
    void say(Output &output, const std::string &lines);
    void say_whether_written();
    void progress();

    const bool is_quiet;
    const bool has_progress;
    const std::chrono::steady_clock::time_point began = std::chrono::steady_clock::now();
    // When the progress line was last written. It is first written with the first guard.
    std::chrono::steady_clock::time_point last_shown{};
    bool is_shown = false;
    Output found;
    Output told;
    uint64_t live_guards = 0;
    uint64_t dead_guards = 0;
    uint64_t undecided_guards = 0;
    uint64_t missed_paths = 0;
    uint64_t passed_paths = 0;
    uint64_t guards_without_origins = 0;
    // Where it is counted.
    std::optional<TakenOut> taken_out;
    std::map<uint32_t, uint64_t> refused_guards;
};

#endif
