/* Shows that a call with a length that is one too large is caught. */
#ifndef CATCHES_H
#define CATCHES_H

/* Prints how many such calls end by SIGSEGV, each in a process of its own; gives 1 where all do, and
 * none of the same calls with the right length. */
int show_catches(void);

#endif
