/*
 * The longest films, of exactly 1,073,741,824 bytes, and of one byte more: what is answered, how long it
 * takes, how much memory the process has at most, and how much stack the call takes. See README.md.
 *
 * Every film is made sparse, is lent read-only, and ends at a page that may not be touched, as do outputs
 * and lists. Every group of calls has a process of its own, every call a thread of its own with a painted
 * stack. The status is 1 where something is not as expected; the last line says how many groups were
 * left out.
 */
#define _GNU_SOURCE
#include "../../examples/films.h"
#include "usm.h"

#include <inttypes.h>
#include <pthread.h>
#include <stdio.h>
#include <stdlib.h>
#include <string.h>
#include <sys/mman.h>
#include <sys/resource.h>
#include <sys/wait.h>
#include <time.h>
#include <unistd.h>

#define LONGEST ((size_t)USM_CONTAINER_BYTES)

/* Where the chunks of F's header begin, and how far apart chunks of zeros are. */
#define CHUNKS_AT F_VIDEO
#define APART 8

/* A chunk needs 45 bytes: the last one of the zeros that has them, at a multiple of 8 from the end. */
#define LAST_CHUNK 48
#define COUNT ((LONGEST - CHUNKS_AT - LAST_CHUNK) / APART + 1)

/* The stack of a call, a whole number of pages, and what it is painted with. */
#define STACK_BYTES (1 << 16)
#define PAINT 0xC3
#define KEY 0x0123456789ABCDEF

#define EXPECT(fact) expect((fact), #fact, __LINE__)

static void expect(int holds, const char *fact, int line)
{
    if (holds)
        return;
    fflush(stdout);
    fprintf(stderr, "large: not as expected, line %d: %s\n", line, fact);
    exit(1);
}

static void *mapped(void *at, size_t bytes, int allowed, int flags)
{
    void *memory = mmap(at, bytes, allowed, flags | MAP_PRIVATE | MAP_ANONYMOUS | MAP_NORESERVE, -1, 0);

    if (memory == MAP_FAILED) {
        perror("mmap");
        exit(2);
    }
    return memory;
}

/* Zeros that take no memory until they are written, between two pages that may not be touched; they end
 * at the second. */
static uint8_t *lend(size_t len)
{
    size_t page = (size_t)sysconf(_SC_PAGESIZE), room = (len + page - 1) / page * page;
    uint8_t *whole = (uint8_t *)mapped(NULL, room + 2 * page, PROT_NONE, 0);

    mapped(whole + page, room, PROT_READ | PROT_WRITE, MAP_FIXED);
    return whole + page + room - len;
}

/* A list of so many records, likewise. */
static struct usm_chunk *lend_list(size_t records)
{
    return (struct usm_chunk *)(void *)lend(records * sizeof(struct usm_chunk));
}

/* From now on a film may only be read. */
static void make_read_only(const uint8_t *film, size_t len)
{
    size_t page = (size_t)sysconf(_SC_PAGESIZE);
    uintptr_t start = (uintptr_t)film / page * page, end = (uintptr_t)film + len;

    EXPECT(mprotect((void *)start, (end - start + page - 1) / page * page, PROT_READ) == 0);
}

/* The machine's memory that is to be had, in bytes. */
static uint64_t memory_to_be_had(void)
{
    char line[256];
    uint64_t kib = 0;
    FILE *file = fopen("/proc/meminfo", "r");

    while (file != NULL && fgets(line, sizeof line, file) != NULL)
        if (sscanf(line, "MemAvailable: %" SCNu64, &kib) == 1)
            break;
    if (file != NULL)
        fclose(file);
    return kib * 1024;
}

/* One call, and what is seen of it. */
struct call {
    const char *name;
    const uint8_t *film;
    size_t len;
    struct usm_key key;
    uint8_t *video, *audio;
    size_t video_len, audio_len;
    struct usm_chunk *list;
    size_t room;
    /* Its reply, as far as it has these. */
    uint8_t number;
    size_t refused_at, video_size, audio_size, count;
    /* The bytes of stack that it took. */
    size_t used;
};

static void call_extract(struct call *c)
{
    struct usm_film_reply reply = usm_extract(c->film, c->len, USM_READ_WITH_AUDIO, c->key, NULL, 0, c->video,
                                              c->video_len, c->audio, c->audio_len);

    c->number = reply.number;
    c->refused_at = reply.refused_at;
    c->video_size = reply.video_size;
    c->audio_size = reply.audio_size;
}

static void call_list(struct call *c)
{
    struct usm_list_reply reply = usm_list(c->film, c->len, USM_READ_WITH_AUDIO, c->list, c->room);

    c->number = reply.number;
    c->refused_at = reply.refused_at;
    c->count = reply.count;
}

/* The table of a film's first block, and the name that it has. */
static void call_table(struct call *c)
{
    c->number = usm_table(c->film, c->len, 32, USM_READ_WITH_AUDIO).number;
}

static void call_cell(struct call *c)
{
    c->number = usm_cell(c->film, c->len, 32, (const uint8_t *)"filename", 8, 0, USM_READ_WITH_AUDIO).number;
}

static void call_key_table(struct call *c)
{
    c->count = usm_key_table(KEY, c->video, c->video_len);
}

static void call_unmask_video(struct call *c)
{
    usm_unmask_video(KEY, c->video, c->video_len);
}

static void call_mask_video(struct call *c)
{
    usm_mask_video(KEY, c->video, c->video_len);
}

static void call_unmask_audio(struct call *c)
{
    usm_unmask_audio(KEY, c->video, c->video_len);
}

static void call_mask_audio(struct call *c)
{
    usm_mask_audio(KEY, c->video, c->video_len);
}

typedef void act(struct call *c);

struct job {
    struct call *call;
    act *does;
    const uint8_t *stack;
    size_t untouched;
};

/* Makes a call, and counts what it touched of the stack below this function. Nothing else is called: it
 * would touch the stack too. */
static void *work(void *given)
{
    struct job *job = (struct job *)given;
    const uint8_t *here = (const uint8_t *)__builtin_frame_address(0);
    size_t untouched = 0;

    job->does(job->call);
    while (job->stack[untouched] == PAINT)
        untouched++;
    job->untouched = untouched;
    job->call->used = (size_t)(here - job->stack) - untouched;
    return NULL;
}

/* Seconds that have passed, and seconds that this process has worked. */
static double seconds_now(void)
{
    struct timespec now;

    clock_gettime(CLOCK_MONOTONIC, &now);
    return (double)now.tv_sec + (double)now.tv_nsec / 1e9;
}

static double seconds_worked(void)
{
    struct rusage used;

    getrusage(RUSAGE_SELF, &used);
    return (double)(used.ru_utime.tv_sec + used.ru_stime.tv_sec) +
           (double)(used.ru_utime.tv_usec + used.ru_stime.tv_usec) / 1e6;
}

/* The most bytes of stack that a call took, in memory that all processes share. */
static size_t *largest_stack;

/* Makes a call on a painted stack, which begins at a page that may not be touched, and prints what is
 * seen of it. */
static void make_call(struct call *c, act *does)
{
    static uint8_t *stack;
    struct job job;
    pthread_attr_t attributes;
    pthread_t thread;
    double began, worked;

    if (stack == NULL)
        stack = lend(STACK_BYTES);
    memset(stack, PAINT, STACK_BYTES);
    job.call = c;
    job.does = does;
    job.stack = stack;
    EXPECT(pthread_attr_init(&attributes) == 0);
    EXPECT(pthread_attr_setstack(&attributes, stack, STACK_BYTES) == 0);
    began = seconds_now();
    worked = seconds_worked();
    EXPECT(pthread_create(&thread, &attributes, work, &job) == 0);
    EXPECT(pthread_join(thread, NULL) == 0);
    EXPECT(job.untouched > 0);
    printf("  %-30s gives %2d in %6.3f s, %6.3f s of CPU, stack %zu bytes\n", c->name, c->number,
           seconds_now() - began, seconds_worked() - worked, c->used);
    pthread_attr_destroy(&attributes);
    if (*largest_stack < c->used)
        *largest_stack = c->used;
}

static struct call call_on(const char *name, const uint8_t *film, size_t len)
{
    struct call c;

    memset(&c, 0, sizeof c);
    c.name = name;
    c.film = film;
    c.len = len;
    return c;
}

/* The song, for comparison, a small film with audio: all nine functions. */
static void try_song(void)
{
    static struct song song;
    static const struct {
        const char *name;
        act *does;
    } ACTS[] = {
        {"usm_key_table", call_key_table},   {"usm_unmask_video", call_unmask_video},
        {"usm_mask_video", call_mask_video}, {"usm_unmask_audio", call_unmask_audio},
        {"usm_mask_audio", call_mask_audio}, {"usm_table", call_table},
        {"usm_cell", call_cell},             {"usm_list", call_list},
        {"usm_extract", call_extract},
    };
    struct usm_chunk *list = lend_list(SONG_CHUNKS);
    uint8_t *film, *video, *audio;
    size_t i;

    make_song(&song, KEY);
    film = lend(song.stored.len);
    video = lend(song.video_len);
    audio = lend(song.audio_len);
    memcpy(film, song.stored.bytes, song.stored.len);
    make_read_only(film, song.stored.len);
    for (i = 0; i < sizeof ACTS / sizeof ACTS[0]; i++) {
        struct call c = call_on(ACTS[i].name, film, song.stored.len);

        c.key = usm_with_key(KEY);
        c.video = video;
        c.video_len = song.video_len;
        c.audio = audio;
        c.audio_len = song.audio_len;
        c.list = list;
        c.room = SONG_CHUNKS;
        make_call(&c, ACTS[i].does);
        EXPECT(c.number == USM_ACCEPTED);
        EXPECT(ACTS[i].does != call_key_table || c.count == USM_KEY_TABLE_BYTES);
        EXPECT(ACTS[i].does != call_list || c.count == SONG_CHUNKS);
    }
    EXPECT(memcmp(video, song.video, song.video_len) == 0 && memcmp(audio, song.audio, song.audio_len) == 0);
}

/* F's header and then zeros: chunks 8 bytes apart. Where the last one is given a size it ends with the
 * film; otherwise it has too few bytes. */
static uint8_t *make_zeros(size_t len, int ends)
{
    uint8_t f[F_BYTES], *film = lend(len);

    make_f(f);
    memcpy(film, f, CHUNKS_AT);
    if (ends)
        put32(film + len - LAST_CHUNK + 4, LAST_CHUNK - 8);
    make_read_only(film, len);
    return film;
}

/* Zeros to the end: all chunks are walked, and the last place has 40 bytes, too few for a chunk. */
static void try_zeros(void)
{
    uint8_t *film = make_zeros(LONGEST, 0);
    struct call c = call_on("usm_list, no list", film, LONGEST);

    make_call(&c, call_list);
    EXPECT(c.number == USM_RAN_OUT && c.refused_at == LONGEST - 40);
    c = call_on("usm_extract", film, LONGEST);
    make_call(&c, call_extract);
    EXPECT(c.number == USM_RAN_OUT && c.refused_at == LONGEST - 40);
}

/* The chunks of an accepted film, measured. */
static void try_measuring(void)
{
    uint8_t *film = make_zeros(LONGEST, 1);
    struct call c = call_on("usm_list, no list", film, LONGEST);

    make_call(&c, call_list);
    EXPECT(c.number == USM_SHORT_LIST && c.count == COUNT);
    c = call_on("usm_extract", film, LONGEST);
    make_call(&c, call_extract);
    EXPECT(c.number == USM_ACCEPTED && c.video_size == 0);
    printf("  %zu chunks\n", (size_t)COUNT);
}

static int is_zero(const void *memory, size_t bytes)
{
    const uint64_t *words = (const uint64_t *)memory;
    size_t i;

    for (i = 0; i < bytes / 8; i++)
        if (words[i] != 0)
            return 0;
    return 1;
}

/* The chunks of an accepted film, listed; the list has one record more than there are chunks. */
static void try_listing(void)
{
    uint8_t *film = make_zeros(LONGEST, 1);
    struct usm_chunk *list = lend_list(COUNT + 1);
    struct call c = call_on("usm_list, one record short", film, LONGEST);
    size_t i;

    c.list = list;
    c.room = COUNT - 1;
    make_call(&c, call_list);
    EXPECT(c.number == USM_SHORT_LIST && c.count == COUNT && is_zero(list, (COUNT + 1) * sizeof *list));

    c = call_on("usm_list, one record more", film, LONGEST);
    c.list = list;
    c.room = COUNT + 1;
    make_call(&c, call_list);
    EXPECT(c.number == USM_ACCEPTED && c.count == COUNT && is_zero(list + COUNT, sizeof *list));
    for (i = 0; i < COUNT; i++)
        EXPECT(list[i].start == CHUNKS_AT + APART * i && list[i].kind == USM_CHUNK_OTHER && list[i].data_type == 0 &&
               list[i].length == 0);
    printf("  %zu records, each as expected\n", (size_t)COUNT);
}

/* One byte too long. */
static void try_too_long(void)
{
    uint8_t *film = make_zeros(LONGEST + 1, 1);
    struct usm_chunk *list = lend_list(2);
    struct call c = call_on("usm_list", film, LONGEST + 1);

    c.list = list;
    c.room = 2;
    make_call(&c, call_list);
    EXPECT(c.number == USM_TOO_LONG && c.refused_at == 0 && is_zero(list, 2 * sizeof *list));
    c = call_on("usm_extract", film, LONGEST + 1);
    make_call(&c, call_extract);
    EXPECT(c.number == USM_TOO_LONG && c.refused_at == 0);
}

/* One video payload of all that F's header leaves, extracted without a key and with one. */
static void try_one_payload(void)
{
    size_t len = LONGEST - CHUNKS_AT - 32, i;
    uint8_t f[F_BYTES], *film = lend(LONGEST), *payload = film + CHUNKS_AT + 32, *video = lend(len);
    struct call c;

    make_f(f);
    memcpy(film, f, CHUNKS_AT + 32);
    put32(film + CHUNKS_AT + 4, LONGEST - CHUNKS_AT - 8);
    for (i = 0; i + 8 <= len; i += 8) {
        uint64_t word = (i + 1) * 0x9E3779B97F4A7C15u; /* never 0 */

        memcpy(payload + i, &word, 8);
    }
    make_read_only(film, LONGEST);

    c = call_on("usm_extract, no output", film, LONGEST);
    make_call(&c, call_extract);
    EXPECT(c.number == USM_SHORT_OUTPUT && c.video_size == len && c.audio_size == 0);
    c = call_on("usm_extract, one byte short", film, LONGEST);
    c.video = video + 1;
    c.video_len = len - 1;
    make_call(&c, call_extract);
    EXPECT(c.number == USM_SHORT_OUTPUT && is_zero(video, len));
    c = call_on("usm_extract, no key", film, LONGEST);
    c.video = video;
    c.video_len = len;
    make_call(&c, call_extract);
    EXPECT(c.number == USM_ACCEPTED && c.video_size == len);
    EXPECT(memcmp(video, payload, len) == 0);
    c = call_on("usm_extract, a key", film, LONGEST);
    c.video = video;
    c.video_len = len;
    c.key = usm_with_key(KEY);
    make_call(&c, call_extract);
    EXPECT(c.number == USM_ACCEPTED && memcmp(video, payload, len) != 0);
    usm_mask_video(KEY, video, len);
    EXPECT(memcmp(video, payload, len) == 0);
    printf("  %zu bytes, as stored without a key, and as stored when masked again\n", len);
}

/* How many groups there were, how many of them were left out, and how many failed. */
static int groups, left_out, failed;

/* Runs a group of calls in a process of its own, where the machine has the memory for it. */
static void run(const char *what, void (*group)(void), uint64_t memory)
{
    uint64_t had = memory_to_be_had();
    struct rusage used;
    int status;
    pid_t child;

    groups++;
    printf("%s\n", what);
    if (had < memory) {
        printf("  LEFT OUT: it takes %.1f GB, and the machine has %.1f GB\n", (double)memory / 1e9, (double)had / 1e9);
        left_out++;
        return;
    }
    fflush(stdout);
    child = fork();
    if (child == 0) {
        group();
        fflush(stdout);
        _exit(0);
    }
    if (child < 0 || wait4(child, &status, 0, &used) != child) {
        perror("fork");
        exit(2);
    }
    if (!WIFEXITED(status) || WEXITSTATUS(status) != 0) {
        printf("  FAILED\n");
        failed++;
        return;
    }
    printf("  resident memory at most %.1f MB\n", (double)used.ru_maxrss * 1024 / 1e6);
}

int main(void)
{
    const uint64_t SMALL = 100000000;

    largest_stack = (size_t *)mmap(NULL, sizeof *largest_stack, PROT_READ | PROT_WRITE, MAP_SHARED | MAP_ANONYMOUS, -1, 0);
    if (largest_stack == MAP_FAILED) {
        perror("mmap");
        return 2;
    }
    run("a small film with audio, 3296 bytes", try_song, SMALL);
    run("F's header and zeros, 1073741824 bytes", try_zeros, SMALL);
    run("F's header and zeros, the last chunk ends with the film, 1073741824 bytes: measured", try_measuring, SMALL);
    run("the same: listed", try_listing, (COUNT + 1) * sizeof(struct usm_chunk) + SMALL);
    run("one byte more, 1073741825 bytes", try_too_long, SMALL);
    run("F's header and one video payload, 1073741824 bytes", try_one_payload, 2 * LONGEST + SMALL);
    printf("the largest stack of a call: %zu bytes\n", *largest_stack);
    if (failed > 0)
        return 1;
    if (left_out > 0)
        printf("hard_use: as expected, but %d of %d groups of long films were LEFT OUT\n", left_out, groups);
    else
        printf("hard_use: all as expected\n");
    return 0;
}
