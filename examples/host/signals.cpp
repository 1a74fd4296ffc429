// Catching signals.

#include "signals.hpp"

#include <signal.h>

namespace {

volatile sig_atomic_t caught = 0;

void keep(int number)
{
    caught = number;
}

// A write to a pipe that nobody reads is one of them: nobody is left to tell.
constexpr int ending[] = {SIGHUP, SIGINT, SIGTERM, SIGPIPE, SIGXCPU, SIGXFSZ};

} // namespace

void catch_signals()
{
    struct sigaction action = {};
    action.sa_handler = keep;
    action.sa_flags = SA_RESETHAND;
    for (const int number : ending) {
        struct sigaction before = {};
        // What the caller has ignored, as nohup does, stays ignored. A pipe that nobody reads ends the pass in any case.
        if (::sigaction(number, nullptr, &before) == 0 && (before.sa_handler != SIG_IGN || number == SIGPIPE))
            ::sigaction(number, &action, nullptr);
    }
}

int caught_signal() noexcept
{
    return caught;
}

void stop_if_caught()
{
    if (caught != 0)
        throw Stopped();
}
