/*
 * How much stack a player needs: each function of libplayer.a, and of libusm.a those that read a film piece by
 * piece and those that say what two keys make of it, below its call, return address and callees included. See README.md.
 * The status is 1 where one needs more than include/usm.h says.
 *
 * A call is made on a stack of its own, which begins at a page that may not be touched. The stack is
 * painted before; the lowest byte that is no longer as painted tells how deep the call went. Then the
 * call is made on just so many bytes, and on 16 fewer, where it has to end by SIGSEGV.
 */
#define _GNU_SOURCE
#include "../../examples/films.h"
#include "lent.h"
#include "make.h"
#include "usm.h"

#include <signal.h>
#include <stdio.h>
#include <stdlib.h>
#include <string.h>
#include <sys/wait.h>
#include <unistd.h>

#define STACK_BYTES 8192
#define LONGEST 4200

/* A function of the library, whatever it gives, and what usm.h says that it needs. */
struct function {
    const char *name;
    void (*at)(void);
    size_t said;
};

static const struct function FUNCTIONS[] = {
    {"usm_key_table", (void (*)(void))usm_key_table, 160},
    {"usm_unmask_video", (void (*)(void))usm_unmask_video, 176},
    {"usm_mask_video", (void (*)(void))usm_mask_video, 240},
    {"usm_unmask_audio", (void (*)(void))usm_unmask_audio, 176},
    {"usm_mask_audio", (void (*)(void))usm_mask_audio, 176},
};

static const uint64_t KEYS[] = {0, 1, 0x0123456789ABCDEF, UINT64_MAX};
static const uint8_t PAINTS[] = {0xA5, 0x5A, 0xC3};

/* Lengths around those at which a row, eight rows or a payload that is masked begins, and a long one. */
static const size_t LENGTHS[] = {0,     95,    96,    0x13F, 0x140, 0x141, 0x15F, 0x160, 0x23F, 0x240,
                                 0x241, 0x250, 0x25F, 0x260, 0x261, 0x33F, 0x340, 0x35F, 0x360, LONGEST};

#define COUNT(list) (sizeof list / sizeof list[0])

/* On how many random films the calls on films are tried. */
#define FILMS 2000

static struct memory stack;
static uint8_t payload[LONGEST];

/* Calls function(key, bytes, len) with the stack pointer at `top`, and comes back to the stack it was called on. */
void call_on(uint8_t *top, void (*function)(void), uint64_t key, uint8_t *bytes, size_t len);

__asm__(".text\n"
        "call_on:\n"
        "    push %rbx\n"
        "    mov %rsp, %rbx\n"
        "    mov %rdi, %rsp\n"
        "    mov %rsi, %rax\n"
        "    mov %rdx, %rdi\n"
        "    mov %rcx, %rsi\n"
        "    mov %r8, %rdx\n"
        "    call *%rax\n"
        "    mov %rbx, %rsp\n"
        "    pop %rbx\n"
        "    ret\n");

/* Makes a call on a painted stack. */
static void call_painted(const struct function *function, uint64_t key, size_t len, uint8_t paint)
{
    memset(stack.lent, paint, STACK_BYTES);
    call_on(stack.lent + STACK_BYTES, function->at, key, payload, len);
}

/* How deep the stack was touched. */
static size_t depth(uint8_t paint)
{
    size_t untouched = 0;

    while (untouched < STACK_BYTES && stack.lent[untouched] == paint)
        untouched++;
    return STACK_BYTES - untouched;
}

/* What a call needs: the deepest of all keys, lengths and paints. */
static size_t needed(const struct function *function)
{
    size_t k, l, p, deepest = 0;

    for (k = 0; k < COUNT(KEYS); k++)
        for (l = 0; l < COUNT(LENGTHS); l++)
            for (p = 0; p < COUNT(PAINTS); p++) {
                call_painted(function, KEYS[k], LENGTHS[l], PAINTS[p]);
                if (deepest < depth(PAINTS[p]))
                    deepest = depth(PAINTS[p]);
            }
    return deepest;
}

/*
 * How deep a call goes once the key table is made. A call with length 0 makes the table and no more, so
 * the words in which it and a longer call leave the stack differently are those that the mask wrote; but
 * for a word that holds the length, which the key table saves for its caller.
 */
static size_t depth_of_mask(const struct function *function, uint64_t key, size_t len, uint8_t paint)
{
    static uint64_t without[STACK_BYTES / 8], with[STACK_BYTES / 8];
    size_t word = 0;

    call_painted(function, key, 0, paint);
    memcpy(without, stack.lent, STACK_BYTES);
    call_painted(function, key, len, paint);
    memcpy(with, stack.lent, STACK_BYTES);
    while (word < STACK_BYTES / 8 && (with[word] == without[word] || (with[word] == len && without[word] == 0)))
        word++;
    return STACK_BYTES - 8 * word;
}

static size_t needed_by_mask(const struct function *function)
{
    size_t k, l, p, deepest = 0;

    for (k = 0; k < COUNT(KEYS); k++)
        for (l = 0; l < COUNT(LENGTHS); l++)
            for (p = 0; p < COUNT(PAINTS); p++) {
                size_t found = depth_of_mask(function, KEYS[k], LENGTHS[l], PAINTS[p]);

                if (deepest < found)
                    deepest = found;
            }
    return deepest;
}

/* Whether some calls on a stack of so many bytes end, in a process of their own, above the page. */
static int enough(const char *name, void (*calls)(const void *what, uint8_t *top), const void *what, size_t bytes)
{
    pid_t child;
    int status;

    fflush(stdout);
    child = fork();
    if (child == 0) {
        calls(what, stack.lent + bytes);
        _exit(0);
    }
    if (child < 0 || waitpid(child, &status, 0) != child) {
        perror("stack: fork");
        exit(2);
    }
    if (WIFEXITED(status))
        return WEXITSTATUS(status) == 0;
    if (WTERMSIG(status) != SIGSEGV) {
        fprintf(stderr, "stack: %s ended by signal %d\n", name, WTERMSIG(status));
        exit(1);
    }
    return 0;
}

/* Calls a function of libplayer.a with every length. */
static void call_all(const void *what, uint8_t *top)
{
    const struct function *function = (const struct function *)what;
    size_t l;

    for (l = 0; l < COUNT(LENGTHS); l++)
        call_on(top, function->at, KEYS[2], payload, LENGTHS[l]);
}

/* Whether so many bytes are enough for some calls, and 16 fewer are not, and usm.h says no less of the function. */
static int is_as_said(const char *name, void (*calls)(const void *what, uint8_t *top), const void *what, size_t deepest,
                      size_t bytes, size_t said)
{
    size_t whole = (deepest + 15) / 16 * 16;

    if (!enough(name, calls, what, whole) || enough(name, calls, what, whole - 16)) {
        printf("stack: %s does not need what was painted over\n", name);
        return 0;
    }
    if (bytes > said)
        printf("stack: usm.h says that %s needs %zu bytes\n", name, said);
    return bytes <= said;
}

/* Measures a function and prints what it needs; whether that is what usm.h says, or less. */
static int measure(const struct function *function, int masks)
{
    size_t bytes = needed(function);

    printf("%-17s %4zu bytes of stack below its call", function->name, bytes);
    if (masks)
        printf(", %4zu once the key table is made", needed_by_mask(function));
    printf("\n");
    return is_as_said(function->name, call_all, function, bytes, bytes, function->said);
}

/* ---- the functions that read a film piece by piece */

typedef struct usm_open_reply open_act(const uint8_t *, size_t, size_t, struct usm_reading);
typedef struct usm_step_reply step_act(const uint8_t *, size_t, size_t, size_t, struct usm_reading, struct usm_film_audio);
typedef void clear_act(uint64_t, uint8_t, uint8_t *, size_t);
typedef uint8_t clear_piece_act(uint64_t, uint8_t, size_t, size_t, const uint8_t *, size_t, uint8_t *, size_t);
typedef struct usm_key_bits_reply bits_act(const uint8_t *, size_t, struct usm_reading);
typedef uint64_t payload_act(uint8_t, size_t);
typedef struct usm_apart_reply apart_act(const uint8_t *, size_t, struct usm_reading, uint64_t, uint64_t);
typedef size_t payload_apart_act(uint8_t, size_t, uint64_t, uint64_t);
typedef uint8_t why_act(uint64_t, uint64_t, uint64_t);

/* What a call is given, the functions that are called, and where their replies go. */
struct piece {
    const uint8_t *bytes;
    size_t len, place;
    struct usm_reading reading;
    struct usm_film_audio audio;
    uint64_t key;
    uint8_t mask;
    open_act *volatile open;
    step_act *volatile step;
    clear_act *volatile clear;
    clear_piece_act *volatile clear_piece;
    bits_act *volatile bits;
    payload_act *volatile payload;
    apart_act *volatile apart;
    payload_apart_act *volatile payload_apart;
    why_act *volatile why;
    struct usm_open_reply opened;
    struct usm_step_reply stepped;
    struct usm_key_bits_reply shown;
    uint64_t shown_by_one;
    struct usm_apart_reply parted;
    size_t parted_in_one;
    uint8_t reason, is_piece;
};

static struct piece piece;

static const uint8_t ROW[USM_ROW_BYTES] = {1, 2, 3};

/* Calls from this program, which take some stack too: as much as with a function that does nothing. */
static void ask_open(struct piece *p)
{
    p->opened = p->open(p->bytes, p->len, p->len, p->reading);
}

static void ask_step(struct piece *p)
{
    p->stepped = p->step(p->bytes + p->place, p->len - p->place, p->place, p->len, p->reading, p->audio);
}

static void ask_clear(struct piece *p)
{
    p->clear(p->key, p->mask, payload, p->len);
}

/* The first piece of a payload, and one that goes on after a row. */
static void ask_first_piece(struct piece *p)
{
    p->is_piece = p->clear_piece(p->key, p->mask, p->len, 0, NULL, 0, payload, p->len);
}

static void ask_piece(struct piece *p)
{
    p->is_piece = p->clear_piece(p->key, p->mask, USM_FIRST_PIECE + p->len, USM_FIRST_PIECE, ROW, sizeof ROW, payload, p->len);
}

static void ask_bits(struct piece *p)
{
    p->shown = p->bits(p->bytes, p->len, p->reading);
}

static void ask_payload_bits(struct piece *p)
{
    p->shown_by_one = p->payload(p->mask, p->len);
}

/* A key, and the one that differs from it in every bit. */
static void ask_apart(struct piece *p)
{
    p->parted = p->apart(p->bytes, p->len, p->reading, p->key, ~p->key);
}

static void ask_payload_apart(struct piece *p)
{
    p->parted_in_one = p->payload_apart(p->mask, p->len, p->key, ~p->key);
}

static void ask_why(struct piece *p)
{
    p->reason = p->why(p->len, p->key, ~p->key);
}

static struct usm_open_reply no_open(const uint8_t *bytes, size_t len, size_t total, struct usm_reading reading)
{
    (void)bytes, (void)len, (void)total, (void)reading;
    return piece.opened;
}

static struct usm_step_reply no_step(const uint8_t *bytes, size_t len, size_t place, size_t total,
                                     struct usm_reading reading, struct usm_film_audio audio)
{
    (void)bytes, (void)len, (void)place, (void)total, (void)reading, (void)audio;
    return piece.stepped;
}

static void no_clear(uint64_t key, uint8_t mask, uint8_t *bytes, size_t len)
{
    (void)key, (void)mask, (void)bytes, (void)len;
}

static uint8_t no_clear_piece(uint64_t key, uint8_t mask, size_t total, size_t place, const uint8_t *row, size_t row_len,
                              uint8_t *bytes, size_t len)
{
    (void)key, (void)mask, (void)total, (void)place, (void)row, (void)row_len, (void)bytes, (void)len;
    return 1;
}

static struct usm_key_bits_reply no_bits(const uint8_t *bytes, size_t len, struct usm_reading reading)
{
    (void)bytes, (void)len, (void)reading;
    return piece.shown;
}

static uint64_t no_payload_bits(uint8_t mask, size_t len)
{
    return mask + len;
}

static struct usm_apart_reply no_apart(const uint8_t *bytes, size_t len, struct usm_reading reading, uint64_t key,
                                       uint64_t other)
{
    (void)bytes, (void)len, (void)reading, (void)key, (void)other;
    return piece.parted;
}

static size_t no_payload_apart(uint8_t mask, size_t len, uint64_t key, uint64_t other)
{
    return mask + len + (size_t)(key ^ other);
}

static uint8_t no_why(uint64_t bits, uint64_t key, uint64_t other)
{
    return (uint8_t)(bits ^ key ^ other);
}

/* A function that takes pieces: how it is called, and what usm.h says that it needs. */
struct reader {
    const char *name;
    void (*ask)(struct piece *p);
    size_t said;
};

static const struct reader READERS[] = {
    {"usm_open", ask_open, 1520},
    {"usm_step", ask_step, 88},
    {"usm_clear", ask_clear, 392},
    {"usm_clear_piece, first", ask_first_piece, 472},
    {"usm_clear_piece", ask_piece, 472},
    {"usm_key_bits", ask_bits, 1488},
    {"usm_payload_bits", ask_payload_bits, 8},
    {"usm_apart", ask_apart, 1696},
    {"usm_payload_apart", ask_payload_apart, 336},
    {"usm_why", ask_why, 8},
};

static void call_functions(int real)
{
    piece.open = real ? usm_open : no_open;
    piece.step = real ? usm_step : no_step;
    piece.clear = real ? usm_clear : no_clear;
    piece.clear_piece = real ? usm_clear_piece : no_clear_piece;
    piece.bits = real ? usm_key_bits : no_bits;
    piece.payload = real ? usm_payload_bits : no_payload_bits;
    piece.apart = real ? usm_apart : no_apart;
    piece.payload_apart = real ? usm_payload_apart : no_payload_apart;
    piece.why = real ? usm_why : no_why;
}

/* A way to make one call of a reader with the piece as it is. */
typedef void visit(const struct reader *reader, void *state);

/* Sets the piece to every mask, key and length. */
static void visit_payloads(const struct reader *reader, visit *does, void *state)
{
    size_t k, l;

    for (k = 0; k < COUNT(KEYS); k++)
        for (l = 0; l < COUNT(LENGTHS); l++)
            for (piece.mask = 0; piece.mask <= USM_MASK_AUDIO + 1; piece.mask++) {
                piece.key = KEYS[k];
                piece.len = LENGTHS[l];
                does(reader, state);
            }
}

/* Sets the piece to a film and, for a step, to each of its chunks. */
static void visit_film(const struct reader *reader, visit *does, void *state)
{
    struct usm_open_reply opened = usm_open(piece.bytes, piece.len, piece.len, piece.reading);

    piece.place = opened.chunks;
    piece.audio = usm_audio_of(opened.film);
    while (reader->ask == ask_step && opened.film.number == USM_ACCEPTED && piece.place < piece.len) {
        struct usm_step_reply step = usm_step(piece.bytes + piece.place, piece.len - piece.place, piece.place, piece.len,
                                              piece.reading, piece.audio);

        does(reader, state);
        if (step.number != USM_ACCEPTED || step.found != USM_STEP_CHUNK)
            break;
        piece.place = step.next;
    }
    if (reader->ask != ask_step)
        does(reader, state);
}

/* Sets the piece to random films, whole and damaged, read in every way. */
static void visit_films(const struct reader *reader, visit *does, void *state)
{
    static struct made made;
    uint64_t number;

    for (number = 0; number < FILMS; number++) {
        struct chance chance = chance_of(1, number);

        make_any_film(&made, &chance);
        piece.bytes = made.bytes;
        piece.len = made.len;
        piece.reading = reading_by_chance(&chance);
        piece.key = KEYS[number % COUNT(KEYS)];
        visit_film(reader, does, state);
    }
}

static void visit_all(const struct reader *reader, visit *does, void *state)
{
    if (reader->ask == ask_clear || reader->ask == ask_first_piece || reader->ask == ask_piece ||
        reader->ask == ask_payload_bits || reader->ask == ask_payload_apart ||
        reader->ask == ask_why)
        visit_payloads(reader, does, state);
    else
        visit_films(reader, does, state);
}

/* Notes how deep a call goes on a painted stack, where that is deeper than the calls before it. */
static void note_depth(const struct reader *reader, void *state)
{
    size_t *deepest = (size_t *)state, p;

    for (p = 0; p < COUNT(PAINTS); p++) {
        memset(stack.lent, PAINTS[p], STACK_BYTES);
        call_on(stack.lent + STACK_BYTES, (void (*)(void))reader->ask, (uint64_t)(uintptr_t)&piece, NULL, 0);
        if (*deepest < depth(PAINTS[p]))
            *deepest = depth(PAINTS[p]);
    }
}

static size_t deepest_of(const struct reader *reader, int real)
{
    size_t deepest = 0;

    call_functions(real);
    visit_all(reader, note_depth, &deepest);
    return deepest;
}

static void call_once(const struct reader *reader, void *state)
{
    call_on((uint8_t *)state, (void (*)(void))reader->ask, (uint64_t)(uintptr_t)&piece, NULL, 0);
}

static void read_all(const void *what, uint8_t *top)
{
    visit_all((const struct reader *)what, call_once, top);
}

/* Measures a function that takes pieces. Below its call are its return address and what it needs itself; a function
 * that does nothing has the address alone. */
static int measure_reader(const struct reader *reader)
{
    size_t frame = deepest_of(reader, 0) - sizeof(void *), deepest = deepest_of(reader, 1), bytes = deepest - frame;

    printf("%-17s %4zu bytes of stack below its call\n", reader->name, bytes);
    return is_as_said(reader->name, read_all, reader, deepest, bytes, reader->said);
}

int main(void)
{
    size_t i;
    int good = 1;

    make_memory(&stack, STACK_BYTES, 0);
    for (i = 0; i < sizeof payload; i++)
        payload[i] = (uint8_t)(i * 37 + i / 256);
    for (i = 0; i < COUNT(FUNCTIONS); i++)
        good &= measure(&FUNCTIONS[i], i > 0);
    for (i = 0; i < COUNT(READERS); i++)
        good &= measure_reader(&READERS[i]);
    return good ? 0 : 1;
}
