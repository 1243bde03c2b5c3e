/* usm_profile beside rules P. */
#include "fuzz.h"

void fuzz(const struct options *options)
{
    struct bytes film = lend(0, options, options->body);
    struct usm_profile_reply reply = usm_profile(film.at, film.len), expected = model_profile(film);

    note(reply.number, 0, reply.refused_at);
    note(reply.rule, 1, reply.place);
    note(reply.rule, 2, reply.stream);
    expect(reply.number == expected.number && reply.unknown_type == expected.unknown_type &&
               reply.refused_at == expected.refused_at,
           "usm_profile: another refusal");
    expect(reply.rule == expected.rule && reply.place == expected.place && reply.stream == expected.stream,
           "usm_profile: another verdict");
}
