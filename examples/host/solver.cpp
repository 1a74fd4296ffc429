// Asking CaDiCaL about clause bytes.

#include "solver.hpp"

#include "signals.hpp"

#include <cadical.hpp>

namespace {

constexpr int satisfiable = 10;
constexpr int unsatisfiable = 20;

// The solver asks now and then whether it should stop.
class StopAtSignal : public CaDiCaL::Terminator {
public:
    bool terminate() override { return caught_signal() != 0; }
};

} // namespace

Verdict Solver::ask(simbolufa::bytes clauses, uint32_t variables)
{
    if (numbers.size() <= variables)
        numbers.resize(size_t{variables} + 1);
    StopAtSignal stop;
    CaDiCaL::Solver solver;
    solver.connect_terminator(&stop);
    // Standard output is the report's, and the solver would write remarks to it.
    solver.set("quiet", 1);
    for (size_t at = 0; at < clauses.size; at += 4) {
        const auto literal = static_cast<int32_t>(simbolufa_read_number(clauses.data + at));
        if (literal == 0)
            solver.add(0);
        else if (literal < 0)
            solver.add(-number_of(static_cast<uint32_t>(-literal)));
        else
            solver.add(number_of(static_cast<uint32_t>(literal)));
    }
    for (const uint32_t variable : numbered)
        numbers[variable] = 0;
    numbered.clear();
    solver.limit("conflicts", most_conflicts);
    switch (solver.solve()) {
    case satisfiable:
        return Verdict::live;
    case unsatisfiable:
        return Verdict::dead;
    default:
        // It did not give up by itself where a signal came.
        stop_if_caught();
        return Verdict::undecided;
    }
}

// Variables are numbered again, from 1 in the order that the clauses have them. A project has thousands of options and a
// guard a few, and the solver makes room for all variables up to the highest.
int Solver::number_of(uint32_t variable)
{
    int &number = numbers[variable];
    if (number == 0) {
        numbered.push_back(variable);
        number = static_cast<int>(numbered.size());
    }
    return number;
}
