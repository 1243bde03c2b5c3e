/*
 * Hard use of usm_open, usm_header_tables, usm_step, usm_clear, usm_clear_piece, usm_payload_bits and
 * usm_payload_apart: random films, whole and damaged, read piece by piece, each piece lent at a page that may
 * not be touched; steps at any place of films of any length; payloads under every mask, whole and cut into pieces. See
 * README.md.
 *
 *     pieces SECONDS SEED
 *
 * What is expected follows from usm_extract, usm_list, usm_key_bits and usm_apart of the whole film, and from the masks
 * of the other library.
 */
#define _GNU_SOURCE
#include "../../examples/films.h"
#include "../../examples/replies.h"
#include "trials.h"
#include "usm.h"

#include <inttypes.h>
#include <signal.h>
#include <stdio.h>

#define LONGEST ((size_t)USM_CONTAINER_BYTES)

/* The bytes that always suffice for a step, and the most that are lent. */
#define ENOUGH 45
#define WINDOW_BYTES 60

/* Of a film up to this length every beginning is lent, and at each chunk every window; of a longer one some. */
#define SHORT_FILM 1200
#define BEGINNINGS 40

/* The most chunks that a film of these has: they are 8 bytes apart at least. */
#define CHUNKS (MADE_BYTES / 8)

static struct memory beginning_memory, window_memory, payload_memory;
static uint64_t opens[256], steps[256], asked_opens, asked_steps, cleared, accepted, refused_late, judged, parted, apart_tried, apart_found;
static uint64_t pieces_cleared, pieces_refused;

/* A film, how it is read, and what the functions for whole films say of it. */
struct whole {
    const uint8_t *bytes;
    size_t len;
    struct usm_reading reading;
    struct usm_key key;
    uint64_t other; /* a key that is often near */
    struct usm_film_reply film;
    struct usm_open_reply opened;
    struct usm_list_reply listed;
    struct usm_chunk list[CHUNKS];
    uint8_t video[MADE_BYTES], audio[MADE_BYTES];
};

static struct whole whole;

static size_t lesser(size_t a, size_t b)
{
    return a < b ? a : b;
}

/* ---- beginnings */

static struct usm_open_reply open_beginning(enum edge edge, size_t len, size_t total)
{
    const uint8_t *beginning = lend_bytes(&beginning_memory, edge, whole.bytes, len);
    struct usm_open_reply reply = usm_open(len == 0 && total % 2 ? NULL : beginning, len, total, whole.reading);

    asked_opens += reply.more;
    opens[reply.film.number] += !reply.more;
    return reply;
}

static struct usm_open_reply more_is_needed(void)
{
    struct usm_open_reply reply;

    memset(&reply, 0, sizeof reply);
    reply.more = 1;
    return reply;
}

/* What is learnt from all bytes: the header that usm_extract has, or its refusal, or that the header is accepted and a
 * chunk is not. */
static void learn_the_whole(enum edge edge)
{
    struct usm_open_reply reply = open_beginning(edge, whole.len, whole.len);
    struct usm_film_reply header = whole.film;

    header.video_size = header.audio_size = 0;
    expect(!reply.more, "all bytes are not enough");
    if (whole.film.number == USM_ACCEPTED || reply.film.number != USM_ACCEPTED)
        expect(same_film(reply.film, header), "another header than extraction's");
    expect(reply.film.number == USM_ACCEPTED || reply.chunks == 0, "chunks beside a refusal");
    whole.opened = reply;
}

/* ---- the tables of a header */

static size_t next_block(size_t start)
{
    const uint8_t *size = whole.bytes + start + 4;

    return start + 8 + ((size_t)size[0] << 24 | (size_t)size[1] << 16 | (size_t)size[2] << 8 | size[3]);
}

/* The tables of an accepted header, one block after the other: five blocks without audio, with audio seven, or nine
 * where the last table is one of audio. */
static struct usm_header_tables expected_tables(void)
{
    struct usm_header_tables tables = {0};
    size_t start = next_block(0);

    tables.name = 0x20;
    tables.video = start + 0x20;
    start = next_block(start);
    if (whole.opened.film.has_audio) {
        tables.audio = start + 0x20;
        start = next_block(next_block(start));
    }
    start = next_block(start);
    tables.video_metadata = start + 0x20;
    start = next_block(start);
    if (whole.opened.film.has_audio && memcmp(whole.bytes + start, "@SFA", 4) == 0)
        tables.audio_metadata = start + 0x20;
    return tables;
}

static int same_tables(struct usm_header_tables a, struct usm_header_tables b)
{
    return a.name == b.name && a.video == b.video && a.audio == b.audio && a.video_metadata == b.video_metadata &&
           a.audio_metadata == b.audio_metadata;
}

/* What is said of a header's tables goes with what is said of the header. */
static void try_tables(enum edge edge, size_t len, struct usm_open_reply opened)
{
    const uint8_t *lent = lend_bytes(&beginning_memory, edge, whole.bytes, len);
    struct usm_tables_reply reply = usm_header_tables(lent, len, whole.len, whole.reading);
    struct usm_header_tables none = {0};
    int accepted = opened.film.number == USM_ACCEPTED && !opened.more;

    expect(reply.number == opened.film.number && reply.refused_at == opened.film.refused_at &&
               reply.unknown_type == opened.film.unknown_type && reply.more == opened.more,
           "usm_header_tables: another header");
    expect(same_tables(reply.tables, accepted ? expected_tables() : none), "usm_header_tables: other places");
}

/* A beginning says what the whole says, or that more is needed. What is known stays known in a longer one. */
static void try_beginning(enum edge edge, size_t len, int *known)
{
    struct usm_open_reply reply = open_beginning(edge, len, whole.len);

    expect(same_open(reply, reply.more ? more_is_needed() : whole.opened), "a beginning misleads");
    expect(!*known || !reply.more, "a longer beginning says less");
    *known = !reply.more;
    try_tables(edge, len, reply);
}

static void try_beginnings(enum edge edge, struct chance *chance)
{
    size_t len, left;
    int known = 0;

    for (len = 0; len <= lesser(whole.len, SHORT_FILM); len++)
        try_beginning(edge, len, &known);
    for (left = whole.len > SHORT_FILM ? BEGINNINGS : 0; left > 0; left--) {
        len = SHORT_FILM + below(chance, whole.len - SHORT_FILM + 1);
        known = 0;
        try_beginning(edge, len, &known);
    }
}

/* ---- steps */

static struct usm_step_reply step_by(enum edge edge, const uint8_t *window, size_t len, size_t place, size_t total,
                                     struct usm_film_audio audio)
{
    const uint8_t *lent = lend_bytes(&window_memory, edge, window, len);
    struct usm_step_reply reply = usm_step(len == 0 && place % 2 ? NULL : lent, len, place, total, whole.reading, audio);

    asked_steps += reply.found == USM_STEP_MORE;
    steps[reply.number] += reply.found != USM_STEP_MORE;
    return reply;
}

/* The step on which nothing is said: all but `found` is 0. */
static struct usm_step_reply empty_step(uint8_t found)
{
    struct usm_step_reply reply;

    memset(&reply, 0, sizeof reply);
    reply.found = found;
    return reply;
}

static struct usm_step_reply refused_step(uint8_t number, size_t place)
{
    struct usm_step_reply reply = empty_step(0);

    reply.number = number;
    reply.refused_at = place;
    return reply;
}

/* The mask of a chunk's payload, by usm.h. */
static uint8_t expected_mask(uint8_t kind, uint8_t data_type, struct usm_film_audio audio)
{
    if (kind == USM_CHUNK_VIDEO && data_type == 0)
        return USM_MASK_VIDEO;
    if (kind == USM_CHUNK_AUDIO && data_type == 0 && audio.has_codec && audio.codec == 2)
        return USM_MASK_AUDIO;
    return USM_MASK_NONE;
}

/* The step on a chunk of a listing, in a film whose next chunk starts there. */
static struct usm_step_reply chunk_step(const struct usm_chunk *chunk, size_t next, struct usm_film_audio audio)
{
    struct usm_step_reply reply = empty_step(USM_STEP_CHUNK);

    reply.next = next;
    reply.payload = chunk->start + chunk->offset;
    reply.length = chunk->length;
    reply.kind = chunk->kind;
    reply.data_type = chunk->data_type;
    reply.channel = chunk->channel;
    reply.mask = expected_mask(chunk->kind, chunk->data_type, audio);
    return reply;
}

/* Any window at a place says what the longest says, or that more is needed, and the latter only where there are more
 * bytes than it has, and fewer than 45 in it. */
static void try_windows(enum edge edge, size_t place, struct usm_step_reply said, struct usm_film_audio audio,
                        struct chance *chance)
{
    size_t left = place < whole.len ? whole.len - place : 0, most = lesser(left, WINDOW_BYTES), len, tries;
    int every = whole.len <= SHORT_FILM;

    for (tries = every ? most + 1 : 2; tries > 0; tries--) {
        struct usm_step_reply reply;

        len = every ? tries - 1 : below(chance, most + 1);
        reply = step_by(edge, whole.bytes + lesser(place, whole.len), len, place, whole.len, audio);
        expect(same_step(reply, reply.found == USM_STEP_MORE ? empty_step(USM_STEP_MORE) : said), "a window misleads");
        expect(reply.found != USM_STEP_MORE || (len < ENOUGH && len < left), "enough bytes are not enough");
    }
}

/* Appends a payload to a stream, unmasked at the edge of a page that may not be touched, and compares it with what
 * extraction wrote. */
static size_t try_payload(enum edge edge, struct usm_step_reply step, const uint8_t *stream, size_t size, size_t done,
                          struct chance *chance)
{
    struct output output = lend_output(&payload_memory, edge, step.length, chance);

    memcpy(output.at, whole.bytes + step.payload, step.length);
    if (whole.key.given)
        usm_clear(whole.key.number, step.mask, output.at, output.len);
    cleared++;
    expect(done + step.length <= size, "a stream is longer than extraction's");
    expect(memcmp(output.at, stream + done, step.length) == 0, "another payload than extraction's");
    expect(stays_from(&output, step.length), "bytes beside a payload are changed");
    return done + step.length;
}

/* The byte at which both keys part in a stream, by the payloads of its kind so far: the first of a payload that differs. */
struct parting {
    size_t before; /* the bytes of the payloads that are the same */
    struct usm_apart_reply reply;
};

/* Takes one more payload of the stream. */
static void part_by(struct parting *parting, uint8_t stream, size_t chunk, struct usm_step_reply step)
{
    size_t offset = usm_payload_apart(step.mask, step.length, whole.key.number, whole.other);

    expect(offset <= step.length, "a byte past a payload");
    if (parting->reply.stream == USM_SAME_STREAMS && offset < step.length) {
        parting->reply.stream = stream;
        parting->reply.byte = parting->before + offset;
        parting->reply.chunk = chunk;
        parting->reply.offset = offset;
    }
    parting->before += step.length;
}

/* What usm_apart says of the film is what its payloads say, those of the video before those of the audio. */
static void expect_parting(const struct parting *video, const struct parting *audio)
{
    struct usm_apart_reply said = usm_apart(whole.bytes, whole.len, whole.reading, whole.key.number, whole.other);

    expect(same_apart(said, video->reply.stream == USM_SAME_STREAMS ? audio->reply : video->reply),
           "another byte than that of the whole film");
    parted += said.stream != USM_SAME_STREAMS;
}

/* Walks all steps beside the listing, to the film's end or its refusal. */
static void try_steps(enum edge edge, struct chance *chance)
{
    struct usm_film_audio audio = usm_audio_of(whole.opened.film);
    size_t place = whole.opened.chunks, count = 0, video = 0, audio_size = 0;
    struct parting video_parting, audio_parting;
    uint64_t bits = 0;

    memset(&video_parting, 0, sizeof video_parting);
    memset(&audio_parting, 0, sizeof audio_parting);
    for (;;) {
        size_t left = place < whole.len ? whole.len - place : 0;
        struct usm_step_reply said =
            step_by(edge, whole.bytes + lesser(place, whole.len), lesser(left, ENOUGH), place, whole.len, audio);

        expect(said.found != USM_STEP_MORE, "45 bytes are not enough");
        try_windows(edge, place, said, audio, chance);
        if (said.found != USM_STEP_CHUNK || said.number != USM_ACCEPTED) {
            expect(same_step(said, whole.film.number == USM_ACCEPTED
                                       ? empty_step(USM_STEP_OVER)
                                       : refused_step(whole.film.number, whole.film.refused_at)),
                   "another end than extraction's");
            break;
        }
        expect(said.next >= place + 8, "a step that does not go on");
        if (whole.film.number == USM_ACCEPTED) {
            expect(count < whole.listed.count && whole.list[count].start == place, "another chunk than the listing's");
            expect(same_step(said, chunk_step(&whole.list[count], said.next, audio)), "another chunk than the listing's");
            if (said.kind == USM_CHUNK_VIDEO)
                video = try_payload(edge, said, whole.video, whole.film.video_size, video, chance);
            if (said.kind == USM_CHUNK_AUDIO)
                audio_size = try_payload(edge, said, whole.audio, whole.film.audio_size, audio_size, chance);
        }
        if (bits < usm_payload_bits(said.mask, said.length))
            bits = usm_payload_bits(said.mask, said.length);
        if (said.kind == USM_CHUNK_VIDEO)
            part_by(&video_parting, USM_VIDEO_STREAM, place, said);
        if (said.kind == USM_CHUNK_AUDIO)
            part_by(&audio_parting, USM_AUDIO_STREAM, place, said);
        count++;
        place = said.next;
    }
    if (whole.film.number == USM_ACCEPTED) {
        expect(bits == usm_key_bits(whole.bytes, whole.len, whole.reading).bits, "other bits than the whole film's");
        expect_parting(&video_parting, &audio_parting);
        expect(count == whole.listed.count, "fewer chunks than the listing's");
        expect(video == whole.film.video_size && audio_size == whole.film.audio_size, "streams of other lengths");
        accepted++;
    } else {
        refused_late++;
    }
}

/* ---- steps at any place of a film of any length */

static const size_t TOTALS[] = {0,           1,       44,          45,          LONGEST - 1,    LONGEST,
                                LONGEST + 1, (size_t)1 << 32, (size_t)1 << 63, SIZE_MAX - 1, SIZE_MAX};

#define COUNT(array) (sizeof(array) / sizeof((array)[0]))

static size_t total_by_chance(struct chance *chance)
{
    switch (below(chance, 4)) {
    case 0:
        return TOTALS[below(chance, COUNT(TOTALS))];
    case 1:
        return below(chance, LONGEST);
    case 2:
        return whole.len + below(chance, 9) - lesser(whole.len, 4);
    default:
        return below(chance, 300);
    }
}

/* A place: near the film's end, before it, far past it, or near the highest number. */
static size_t place_by_chance(struct chance *chance, size_t total)
{
    switch (below(chance, 4)) {
    case 0:
        return SIZE_MAX - below(chance, 64);
    case 1:
        return total + below(chance, 60) - lesser(total, 50);
    case 2:
        return total == 0 ? 0 : below(chance, total);
    default:
        return total - lesser(total, below(chance, 2000));
    }
}

/* A film's header with audio or without. Gives its bytes. */
static size_t put_header(uint8_t *film, int audio)
{
    if (audio)
        return put_song_header(film);
    make_f(film);
    return F_VIDEO;
}

/* A step at which 45 bytes or more are left. A listing says the same of a film in which the window stands behind a
 * header, as far from the film's end as here. Where the step goes on before that, one chunk takes the rest. */
static void expect_listed(struct usm_step_reply said, const uint8_t *window, size_t len, size_t place, size_t left,
                          struct usm_film_audio audio)
{
    static uint8_t film[2 * MADE_BYTES];
    size_t header = put_header(film, audio.present != 0), gap = said.next - place;
    struct usm_chunk chunks[2];
    struct usm_list_reply listed;

    memset(film + header, 0, left);
    memcpy(film + header, window, len);
    if (said.number == USM_ACCEPTED && gap < ENOUGH)
        return; /* the rest would stand in the window */
    if (said.number == USM_ACCEPTED && gap + ENOUGH <= left) {
        put_text(film + header + gap, "@CUE");
        put32(film + header + gap + 4, left - gap - 8);
    }
    listed = usm_list(film, header + left, whole.reading, chunks, 2);
    judged++;
    if (said.number != USM_ACCEPTED) {
        expect(same_step(said, refused_step(listed.number, listed.refused_at - header + place)), "another refusal");
        return;
    }
    if (gap + 4 <= left && left < gap + ENOUGH) {
        expect(listed.number == USM_RAN_OUT && listed.refused_at == header + gap, "a step that goes on elsewhere");
        return;
    }
    expect(listed.number == USM_ACCEPTED && listed.count == (gap + ENOUGH <= left ? 2 : 1), "another listing");
    expect(listed.count == 1 || chunks[1].start == header + gap, "a step that goes on elsewhere");
    chunks[0].start += place - header;
    expect(same_step(said, chunk_step(&chunks[0], said.next, audio)), "another chunk");
}

/* A step at any place of a film of any length: the limit first, then the end, then what a listing says. */
static void expect_step(struct usm_step_reply said, const uint8_t *window, size_t len, size_t place, size_t total,
                        struct usm_film_audio audio)
{
    size_t left = place < total ? total - place : 0;

    if (total > LONGEST)
        expect(same_step(said, refused_step(USM_TOO_LONG, 0)), "another answer than 11");
    else if (left < 4)
        expect(same_step(said, empty_step(USM_STEP_OVER)), "a chunk past the film");
    else if (left < ENOUGH)
        expect(same_step(said, refused_step(USM_RAN_OUT, place)), "another answer than 1");
    else if (len < ENOUGH)
        expect(same_step(said, empty_step(USM_STEP_MORE)), "an answer by too few bytes");
    else if (left <= MADE_BYTES)
        expect_listed(said, window, len, place, left, audio);
}

/* Where a window begins: anywhere, or at a chunk, where there is one. */
static size_t window_by_chance(struct chance *chance)
{
    if (whole.listed.number == USM_ACCEPTED && whole.listed.count > 0 && !once_in(chance, 4))
        return whole.list[below(chance, whole.listed.count)].start;
    return below(chance, whole.len + 1);
}

static void try_any_step(enum edge edge, struct chance *chance)
{
    struct usm_film_audio audio = {(uint32_t)below(chance, 5), (uint8_t)(any(chance) & any(chance)), (uint8_t)any(chance)};
    size_t total = total_by_chance(chance), place = place_by_chance(chance, total);
    size_t at = window_by_chance(chance), len = lesser(below(chance, WINDOW_BYTES + 1), whole.len - at);
    struct usm_step_reply reply;

    reply = step_by(edge, whole.bytes + at, len, place, total, audio);
    expect_step(reply, whole.bytes + at, len, place, total, audio);
    if (reply.found == USM_STEP_CHUNK && reply.number == USM_ACCEPTED)
        expect(place + 8 <= reply.next && reply.payload + reply.length <= total, "a payload past the film");
    expect(reply.number == 0 || reply.number == USM_TOO_LONG || reply.number == USM_RAN_OUT ||
               reply.number == USM_TOO_SMALL || reply.number == USM_SHORT_HEADER,
           "a number that usm.h does not have");
}

/* A beginning of a film that is said to be longer or shorter than it is. The limit comes first; a length is only a
 * reason to wait for more. */
static void try_any_open(enum edge edge, struct chance *chance)
{
    size_t total = total_by_chance(chance), len = below(chance, whole.len + 1);
    struct usm_open_reply reply = open_beginning(edge, len, total), alone;

    expect(!reply.more || (len < total && same_open(reply, more_is_needed())), "all bytes are not enough");
    expect((reply.film.number == USM_TOO_LONG) == (total > LONGEST), "another answer than 11");
    if (total <= LONGEST && !reply.more) {
        alone = open_beginning(edge, len, len);
        expect(same_open(reply, alone), "a length changes what a beginning says");
    }
}

/* ---- a case */

static void make_whole(enum edge edge, struct chance *chance)
{
    if (once_in(chance, 3))
        make_clips(&trial.made, chance);
    else
        make_any_film(&trial.made, chance);
    whole.bytes = trial.made.bytes;
    whole.len = trial.made.len;
    whole.reading = reading_by_chance(chance);
    whole.key = key_by_chance(chance);
    whole.other = key_near(chance, whole.key.number);
    whole.film = usm_extract(whole.bytes, whole.len, whole.reading, whole.key, NULL, 0, whole.video, sizeof whole.video,
                             whole.audio, sizeof whole.audio);
    whole.listed = usm_list(whole.bytes, whole.len, whole.reading, whole.list, CHUNKS);
    expect(whole.listed.number == whole.film.number, "a listing and an extraction that differ");
    learn_the_whole(edge);
}

static void try_case(enum edge edge)
{
    struct chance chance = chance_of(trial.seed, trial.number);
    int i;

    make_whole(edge, &chance);
    try_beginnings(edge, &chance);
    if (whole.opened.film.number == USM_ACCEPTED)
        try_steps(edge, &chance);
    for (i = 0; i < 20; i++)
        try_any_step(edge, &chance);
    for (i = 0; i < 4; i++)
        try_any_open(edge, &chance);
}

/* ---- every mask */

/* Lengths at which a mask begins or a row or eight of them end. */
static const size_t LENGTHS[] = {0,     1,     0x3F,  0x40,  0x41,  0x13F, 0x140, 0x141, 0x142, 0x15F,
                                 0x160, 0x161, 0x23F, 0x240, 0x241, 0x25F, 0x260, 0x261, 0x33F, 0x340};

static void try_mask(enum edge edge, uint8_t mask, size_t len, struct chance *chance)
{
    static uint8_t expected[0x800];
    struct output output = lend_output(&payload_memory, edge, len, chance);
    uint64_t key = any(chance);

    memcpy(expected, output.at, len);
    if (mask == USM_MASK_VIDEO)
        usm_unmask_video(key, expected, len);
    if (mask == USM_MASK_AUDIO)
        usm_unmask_audio(key, expected, len);
    usm_clear(key, mask, len == 0 && mask % 2 ? NULL : output.at, len);
    expect(memcmp(output.at, expected, len) == 0, "a payload that the mask makes another");
    expect(stays_from(&output, len), "bytes beside a payload are changed");
    cleared++;
}

/* The bytes of a payload that usm_clear leaves under a key. */
static void clear_at(enum edge edge, const uint8_t *stored, size_t len, uint8_t mask, uint64_t key, uint8_t *clear,
                     struct chance *chance)
{
    struct output output = lend_output(&payload_memory, edge, len, chance);

    memcpy(output.at, stored, len);
    usm_clear(key, mask, output.at, len);
    memcpy(clear, output.at, len);
}

/* Lengths of payloads that no machine holds. Two keys part in them where they do in one of the longest that is cleared. */
static const size_t LONG[] = {0x10000, (size_t)1 << 32, ((size_t)1 << 32) + 0x141, SIZE_MAX - 1, SIZE_MAX};

/* Where two keys part in a payload: the first byte that usm_clear leaves different, or its length. */
static void try_apart(enum edge edge, uint8_t mask, size_t len, struct chance *chance)
{
    static uint8_t stored[0x800], first[0x800], second[0x800];
    uint64_t key = any(chance), other = key_near(chance, key);
    size_t at = 0, i;

    fill_by_chance(chance, stored, len);
    clear_at(edge, stored, len, mask, key, first, chance);
    clear_at(edge, stored, len, mask, other, second, chance);
    while (at < len && first[at] == second[at])
        at++;
    expect(usm_payload_apart(mask, len, key, other) == at, "keys that part elsewhere than their payloads");
    for (i = 0; i < COUNT(LONG) && 0x400 <= len; i++)
        expect(usm_payload_apart(mask, LONG[i], key, other) == (at < len ? at : LONG[i]),
               "keys that part elsewhere in a long payload");
    apart_tried++;
    apart_found += at < len;
}

/* ---- payloads in pieces */

/* Whether a payload of `total` bytes can be cut at a place, by usm.h. */
static int is_edge(size_t place)
{
    return place >= USM_FIRST_PIECE && place % USM_ROW_BYTES == 0;
}

static int is_piece(size_t total, size_t place, size_t row_len, size_t len)
{
    if (place > total || len > total - place)
        return 0;
    if (place != 0 && (row_len != USM_ROW_BYTES || !is_edge(place)))
        return 0;
    return place + len == total || is_edge(place + len);
}

/* The bytes of the next piece, at random: up to a cut, or all that are left. */
static size_t next_piece(size_t total, size_t place, struct chance *chance)
{
    size_t rows = below(chance, 12), len = rows * USM_ROW_BYTES + (place == 0 ? USM_FIRST_PIECE : 0);

    return below(chance, 4) == 0 || len > total - place ? total - place : len;
}

/* A payload unmasked piece by piece is what usm_clear leaves of the whole. */
static void try_pieces(enum edge edge, uint8_t mask, size_t total, struct chance *chance)
{
    static uint8_t stored[0x800], clear[0x800];
    uint64_t key = any(chance);
    size_t place = 0;

    fill_by_chance(chance, stored, total);
    clear_at(edge, stored, total, mask, key, clear, chance);
    do {
        size_t len = next_piece(total, place, chance), row_len = place == 0 ? below(chance, 2) * USM_ROW_BYTES : USM_ROW_BYTES;
        const uint8_t *row = lend_bytes(&window_memory, edge, place == 0 ? stored : clear + place - USM_ROW_BYTES, row_len);
        struct output output = lend_output(&payload_memory, edge, len, chance);

        memcpy(output.at, stored + place, len);
        expect(usm_clear_piece(key, mask, total, place, row_len == 0 ? NULL : row, row_len, output.at, len) == 1,
               "a piece is refused");
        expect(memcmp(output.at, clear + place, len) == 0, "a piece that is not what the whole payload has there");
        expect(stays_from(&output, len), "bytes beside a piece are changed");
        pieces_cleared++;
        place += len;
    } while (place < total);
}

/* A place, a length or the bytes of a row, near the cuts of a payload or near 2^64. */
static size_t any_place(struct chance *chance)
{
    static const size_t NEAR[] = {0, USM_ROW_BYTES, 0x140, USM_FIRST_PIECE, 0x300, 0x10000, SIZE_MAX - 0x5FF, SIZE_MAX};
    size_t at = NEAR[below(chance, COUNT(NEAR))] + below(chance, 0x60);

    return below(chance, 2) ? at : at / USM_ROW_BYTES * USM_ROW_BYTES;
}

/* Bytes of any length at any place of a payload of any length: a piece or none, by the rule; what is none stays. */
static void try_any_piece(enum edge edge, struct chance *chance)
{
    static uint8_t stored[0x800];
    size_t place = any_place(chance), len = any_place(chance) % sizeof stored, row_len = below(chance, 4) ? USM_ROW_BYTES : below(chance, 60);
    size_t total = below(chance, 3) ? place + len + (below(chance, 2) ? 0 : any_place(chance)) : any_place(chance);
    struct output output = lend_output(&payload_memory, edge, len, chance);
    const uint8_t *row = lend_bytes(&window_memory, edge, stored, row_len);
    uint8_t reply;

    memcpy(stored, output.at, len);
    reply = usm_clear_piece(any(chance), (uint8_t)below(chance, 4), total, place, row, row_len, output.at, len);
    expect(reply == is_piece(total, place, row_len, len), "a piece is refused, or what is none is taken for one");
    expect(reply || memcmp(output.at, stored, len) == 0, "bytes that are no piece are changed");
    expect(stays_from(&output, len), "bytes beside a piece are changed");
    pieces_cleared += reply;
    pieces_refused += !reply;
}

static void try_masks(enum edge edge)
{
    struct chance chance = chance_of(trial.seed, 1);
    int mask, pairs;
    size_t i;

    for (mask = 0; mask < 256; mask++) {
        for (i = 0; i < COUNT(LENGTHS); i++) {
            try_mask(edge, (uint8_t)mask, LENGTHS[i], &chance);
            try_apart(edge, (uint8_t)mask, LENGTHS[i], &chance);
        }
        for (i = 0; i < 20; i++) {
            try_mask(edge, (uint8_t)mask, below(&chance, 0x800), &chance);
            try_apart(edge, (uint8_t)mask, below(&chance, 0x800), &chance);
            try_pieces(edge, (uint8_t)mask, below(&chance, 0x800), &chance);
        }
    }
    for (mask = USM_MASK_VIDEO; mask <= USM_MASK_AUDIO; mask++)
        for (i = 0; i < 0x400; i++) {
            try_mask(edge, (uint8_t)mask, i, &chance);
            for (pairs = 0; pairs < 8; pairs++)
                try_pieces(edge, (uint8_t)mask, i, &chance);
            for (pairs = 0; pairs < 32; pairs++)
                try_apart(edge, (uint8_t)mask, i, &chance);
        }
    for (i = 0; i < 100000; i++)
        try_any_piece(edge, &chance);
}

/* ---- what is caught */

/* Calls on one byte fewer than the length that they are given, where every byte counts, and the same with all of them. */
static void call_told_of_more(size_t which)
{
    struct chance chance = chance_of(1, 1);
    struct usm_film_audio no_audio = {0, 0, 0};
    size_t lacks = which % 2;
    struct output output;
    uint8_t f[F_BYTES];

    make_f(f);
    whole.reading = USM_READ_WITH_AUDIO;
    output = lend_output(&payload_memory, ENDS, 0x240 - lacks, &chance);
    switch (which / 2) {
    case 0:
        usm_open(lend_bytes(&beginning_memory, ENDS, f, F_VIDEO - 19 - lacks), F_VIDEO - 19, F_BYTES, whole.reading);
        break;
    case 1:
        usm_step(lend_bytes(&window_memory, ENDS, f + F_END, ENOUGH - lacks), ENOUGH, F_END, F_BYTES, whole.reading,
                 no_audio);
        break;
    case 2:
        usm_clear(1, USM_MASK_VIDEO, output.at, 0x240);
        break;
    case 3:
        usm_clear(1, USM_MASK_AUDIO, output.at, 0x240);
        break;
    case 4:
        usm_clear_piece(1, USM_MASK_VIDEO, 0x1000, 0x240, f, USM_ROW_BYTES, output.at, 0x240);
        break;
    case 5:
        usm_clear_piece(1, USM_MASK_AUDIO, 0x1000, 0x240, f, USM_ROW_BYTES, output.at, 0x240);
        break;
    case 6:
        output = lend_output(&payload_memory, ENDS, 0x20, &chance);
        usm_clear_piece(1, USM_MASK_VIDEO, 0x1000, 0x240, lend_bytes(&window_memory, ENDS, f, USM_ROW_BYTES - lacks), USM_ROW_BYTES,
                        output.at, 0x20);
        break;
    }
}

static void show_catches(void)
{
    size_t which;

    for (which = 0; which < 14; which++)
        expect(signal_of(call_told_of_more, which) == (which % 2 ? SIGSEGV : 0),
               "a call that reaches too far is not caught");
    printf("pieces: with a length one byte too large, each call ends by SIGSEGV\n");
}

int main(int count, char **words)
{
    double seconds = begin_trials("pieces", count, words);

    make_memory(&beginning_memory, MADE_BYTES, 1);
    make_memory(&window_memory, WINDOW_BYTES, 1);
    make_memory(&payload_memory, MADE_BYTES, 0);
    expect(sizeof(struct usm_open_reply) == 72 && sizeof(struct usm_film_audio) == 8 &&
               sizeof(struct usm_step_reply) == 40,
           "records of other sizes than usm.h says");
    show_catches();
    expect_no_signal();
    try_masks(ENDS);
    try_masks(BEGINS);
    try_cases(seconds, try_case);
    print_answers("usm_open", opens);
    printf("; more is needed: %" PRIu64 "\n", asked_opens);
    print_answers("usm_step", steps);
    printf("; more is needed: %" PRIu64 "\n", asked_steps);
    printf("pieces: %" PRIu64 " films put together of their pieces, %" PRIu64 " refused by a step, %" PRIu64
           " payloads cleared, %" PRIu64
           " steps at other places beside a listing\n",
           accepted, refused_late, cleared, judged);
    printf("usm_clear_piece: %" PRIu64 " pieces cleared, %" PRIu64 " refused\n", pieces_cleared, pieces_refused);
    printf("usm_payload_apart: %" PRIu64 " payloads under two keys, %" PRIu64 " differ; %" PRIu64
           " films whose payloads part where the film does\n",
           apart_tried, apart_found, parted);
    printf("pieces: all as expected\n");
    return 0;
}
