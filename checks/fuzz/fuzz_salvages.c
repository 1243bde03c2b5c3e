/* usm_salvage beside every cut of the film, on the film and on a beginning of it. */
#include "fuzz.h"

static void try_salvage(struct bytes film)
{
    struct usm_salvage_reply reply = usm_salvage(film.at, film.len), expected = model_salvage(film);

    note(reply.number, 0, reply.refused_at);
    note(reply.cause, 1, reply.dropped);
    note(reply.cause, 2, reply.kept);
    expect(reply.number == expected.number && reply.unknown_type == expected.unknown_type &&
               reply.refused_at == expected.refused_at,
           "usm_salvage: another refusal");
    expect(reply.kept == expected.kept && reply.dropped == expected.dropped && reply.cause == expected.cause,
           "usm_salvage: another cut");
}

void fuzz(const struct options *options)
{
    struct bytes film = lend(0, options, options->body), cut = film;

    try_salvage(film);
    cut.len = film.len == 0 ? 0 : (size_t)(options->other % film.len);
    try_salvage(lend(1, options, cut));
}
