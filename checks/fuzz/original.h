/* The original Rust beside a film, inside the domain of rule R9: where every answer must be the same. */
#ifndef ORIGINAL_H
#define ORIGINAL_H

#include "harness.h"

void try_original(const struct options *options, struct bytes film, const struct model_film *read, const uint8_t *video,
                  const uint8_t *audio);

#endif
