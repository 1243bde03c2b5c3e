/* A harness: what is tried of an input. */
#ifndef FUZZ_H
#define FUZZ_H

#include "harness.h"

void fuzz(const struct options *options);

#endif
