// A refusal as the host says it: what is refused, where to mend it, and what is wrong there.

#ifndef REFUSAL_HPP
#define REFUSAL_HPP

#include "guards.hpp"

#include <simbolufa.hpp>

#include <string>

// What is wrong with a guard, in words. Of a p sat text that is not accepted they begin with the column.
std::string sentence_of(const Guard &guard, const simbolufa::answer &answer);

// The line of a refusal, without its end. It always has seven fields, parted by tabs: the guard's name, `refused`, the
// number, the place, the source, the line to mend as FILE:LINE, and the sentence. The source may be empty. The line is
// counted in the whole file. Where the refusal is about no one line, it is the line on which the guard begins.
std::string refusal_line(const Guard &guard, const simbolufa::answer &answer, const std::string &sentence);

#endif
