// The solver that the pass asks: CaDiCaL, through its library.

#ifndef SOLVER_HPP
#define SOLVER_HPP

#include <simbolufa.hpp>

#include <cstdint>
#include <vector>

// What a solver says of a guard.
enum class Verdict {
    // Some choice of options compiles the branch.
    live,
    // No choice of options does.
    dead,
    // The solver gave up.
    undecided
};

class Solver {
public:
    // The solver gives up on a guard after so many conflicts. Conflicts are counted and not seconds, so that every pass
    // over the same guards says the same.
    explicit Solver(int most_conflicts) : most_conflicts(most_conflicts) {}

    // Asks about clause bytes that convert wrote. Guards are asked one by one and share nothing. Throws Stopped after a
    // signal.
    Verdict ask(simbolufa::bytes clauses, uint32_t variables);

private:
    // The solver's own number of a guard's variable.
    int number_of(uint32_t variable);

    const int most_conflicts;
    // 0 where a variable has no number yet. Kept between guards, with zeros.
    std::vector<int> numbers;
    // The variables that have a number, in the order of their numbers.
    std::vector<uint32_t> numbered;
};

#endif
