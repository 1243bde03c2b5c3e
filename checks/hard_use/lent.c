#define _GNU_SOURCE
#include "lent.h"

#include <signal.h>
#include <stdio.h>
#include <stdlib.h>
#include <string.h>
#include <sys/mman.h>
#include <sys/wait.h>
#include <unistd.h>

/* What slices are filled with, from one of so many places on. */
#define OLD_PLACES 256
#define OLD_BYTES (1 << 20)

static uint8_t old_bytes[OLD_BYTES + OLD_PLACES];

static void *mapped(void *at, size_t bytes, int allowed, int flags, int file)
{
    void *memory = mmap(at, bytes, allowed, flags, file, 0);

    if (memory == MAP_FAILED) {
        perror("mmap");
        exit(2);
    }
    return memory;
}

void make_memory(struct memory *memory, size_t room, int read_only)
{
    size_t page = (size_t)sysconf(_SC_PAGESIZE);
    int file = memfd_create("lent", 0);
    uint8_t *whole;

    room = (room + MARGIN + page - 1) / page * page;
    if (file < 0 || ftruncate(file, (off_t)room) != 0) {
        perror("memfd_create");
        exit(2);
    }
    whole = (uint8_t *)mapped(NULL, room + 2 * page, PROT_NONE, MAP_PRIVATE | MAP_ANONYMOUS, -1);
    memory->lent = whole + page;
    memory->room = room;
    mapped(memory->lent, room, read_only ? PROT_READ : PROT_READ | PROT_WRITE, MAP_SHARED | MAP_FIXED, file);
    memory->own = memory->lent;
    if (read_only)
        memory->own = (uint8_t *)mapped(NULL, room, PROT_READ | PROT_WRITE, MAP_SHARED, file);
    close(file);
}

uint8_t *make_zeros(size_t bytes)
{
    size_t page = (size_t)sysconf(_SC_PAGESIZE), room = (bytes + page - 1) / page * page;
    uint8_t *whole = (uint8_t *)mapped(NULL, room + page, PROT_READ | PROT_WRITE,
                                       MAP_PRIVATE | MAP_ANONYMOUS | MAP_NORESERVE, -1);

    if (mprotect(whole + room, page, PROT_NONE) != 0) {
        perror("mprotect");
        exit(2);
    }
    return whole + room - bytes;
}

void forbid_writing(uint8_t *bytes, size_t len)
{
    if (mprotect(bytes, len, PROT_READ) != 0) {
        perror("mprotect");
        exit(2);
    }
}

/* Where a slice of some bytes begins. */
static size_t place_of(const struct memory *memory, enum edge edge, size_t len)
{
    if (len + MARGIN > memory->room) {
        fprintf(stderr, "a slice of %zu bytes does not fit\n", len);
        exit(2);
    }
    return edge == ENDS ? memory->room - len : 0;
}

const uint8_t *lend_bytes(struct memory *memory, enum edge edge, const uint8_t *bytes, size_t len)
{
    size_t place = place_of(memory, edge, len);

    memcpy(memory->own + place, bytes, len);
    return memory->lent + place;
}

struct output lend_output(struct memory *memory, enum edge edge, size_t len, struct chance *chance)
{
    size_t place = place_of(memory, edge, len);
    struct output output;
    uint8_t *whole = memory->lent + (edge == ENDS ? place - MARGIN : 0);

    if (old_bytes[0] == 0 && old_bytes[1] == 0) {
        struct chance own = chance_of(1, 1);

        fill_by_chance(&own, old_bytes, sizeof old_bytes);
    }
    output.at = memory->lent + place;
    output.len = len;
    output.whole = whole;
    output.whole_len = len + MARGIN;
    output.old = old_bytes + below(chance, OLD_PLACES);
    memcpy(whole, output.old, output.whole_len);
    return output;
}

int stays_from(const struct output *output, size_t from)
{
    size_t before = (size_t)(output->at - output->whole), after = before + from;

    return memcmp(output->whole, output->old, before) == 0 &&
           memcmp(output->whole + after, output->old + after, output->whole_len - after) == 0;
}

int signal_of(void (*call)(size_t which), size_t which)
{
    pid_t child;
    int status;

    fflush(stdout);
    child = fork();
    if (child < 0) {
        perror("fork");
        exit(2);
    }
    if (child == 0) {
        signal(SIGSEGV, SIG_DFL);
        call(which);
        _exit(0);
    }
    if (waitpid(child, &status, 0) != child) {
        perror("waitpid");
        exit(2);
    }
    return WIFSIGNALED(status) ? WTERMSIG(status) : 0;
}

double seconds_by(clockid_t clock)
{
    struct timespec now;

    clock_gettime(clock, &now);
    return (double)now.tv_sec + (double)now.tv_nsec / 1e9;
}
