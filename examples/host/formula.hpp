// What a guard's text says: an option count and a node table.

#ifndef FORMULA_HPP
#define FORMULA_HPP

#include "guards.hpp"

#include <simbolufa.hpp>

#include <cstdint>
#include <vector>

// One is used for all guards, so that its table is not allocated for each.
struct Formula {
    uint32_t options = 0;
    std::vector<uint8_t> table;
};

// Reads the text of a guard, a node file or a p sat text. The answer is acceptance, or the refusal of the text. Throws
// Unreadable where a text is cut short and what is kept of it does not decide that.
simbolufa::answer read_formula(const Guard &guard, Formula &formula);

#endif
