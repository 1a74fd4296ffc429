// Times how CaDiCaL reads a DIMACS file, ROUNDS times, each time into a new solver. Nothing is solved.
//
//   parsers FILE ROUNDS
//
// It prints the nanoseconds of processor time of each round. They count reading the file and what the parser does with
// each clause: it goes into the solver's clause store. Making and freeing the solver is not counted.

#include <cadical.hpp>

#include <cstdio>
#include <cstdlib>
#include <ctime>

namespace {

long long used()
{
    timespec time;
    if (clock_gettime(CLOCK_THREAD_CPUTIME_ID, &time) != 0) {
        std::perror("parsers: clock_gettime");
        std::exit(1);
    }
    return time.tv_sec * 1000000000LL + time.tv_nsec;
}

} // namespace

int main(int count, char **words)
{
    if (count != 3) {
        std::fputs("usage: parsers FILE ROUNDS\n", stderr);
        return 1;
    }
    for (int round = std::atoi(words[2]); round > 0; --round) {
        CaDiCaL::Solver solver;
        solver.set("quiet", 1);
        int variables = 0;
        const long long began = used();
        const char *wrong = solver.read_dimacs(words[1], variables);
        const long long took = used() - began;
        if (wrong) {
            std::fprintf(stderr, "parsers: %s\n", wrong);
            return 1;
        }
        std::printf("%lld\n", took);
    }
}
