/* The benchmark's rows for codes and covers from elsewhere. */
#ifndef BENCH_CHECK_H
#define BENCH_CHECK_H

/* Prints a line for each check: what it is, its sizes, its answer, and the library's time of a call; then the stack of the call that needs
   most. */
void bench_checks(void);

#endif
