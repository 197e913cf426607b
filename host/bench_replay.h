/* The benchmark's recorded runs: what a step costs. */
#ifndef BENCH_REPLAY_H
#define BENCH_REPLAY_H

/* Prints a line `replay states rows steps` and four times for each plan: microseconds of a call and nanoseconds of a step by the library, and
   the same by the second encoder. Ends the benchmark where the two differ. */
void bench_replays(unsigned seed);

#endif
