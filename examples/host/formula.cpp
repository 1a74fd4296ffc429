// Reading a guard's text as what it is.

#include "formula.hpp"

#include "file.hpp"
#include "node_file.hpp"

#include <string>

namespace {

simbolufa::answer read_sat_text(const Guard &guard, Formula &formula)
{
    const simbolufa::answer told = simbolufa::sat_table(guard.text, formula.table);
    formula.options = told.first;
    // What is wrong before the end of the kept part is wrong whatever comes behind it.
    const bool is_decided = told.number == SIMBOLUFA_REFUSED_SAT_TEXT && told.place < guard.text.size();
    if (guard.is_cut && !is_decided)
        throw Unreadable("it is a p sat text of over " + std::to_string(guard.text.size()) +
                         " bytes, and nothing is wrong up to there");
    return told;
}

} // namespace

simbolufa::answer read_formula(const Guard &guard, Formula &formula)
{
    return guard.is_sat ? read_sat_text(guard, formula) : read_node_file(guard.text, formula);
}
