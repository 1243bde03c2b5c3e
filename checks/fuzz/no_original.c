/* Where the original's files are not at hand. */
#include "original.h"

void try_original(const struct options *options, struct bytes film, const struct model_film *read, const uint8_t *video,
                  const uint8_t *audio)
{
    (void)options;
    (void)film;
    (void)read;
    (void)video;
    (void)audio;
}
