// Signals that end the pass. It stops at its next step, and still says what it found.

#ifndef SIGNALS_HPP
#define SIGNALS_HPP

// Thrown where the pass stops for a signal.
struct Stopped {};

// From here on a signal is kept. A second one of the same number ends the program at once.
void catch_signals();

// The signal that was caught, or 0.
int caught_signal() noexcept;

// Throws Stopped where a signal was caught.
void stop_if_caught();

#endif
