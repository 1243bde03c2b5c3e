/*
 * What the harnesses share: how an input is read, what is lent to a call, what is noted of an answer, and how a
 * difference ends the run.
 */
#ifndef HARNESS_H
#define HARNESS_H

#include "../hard_use/lent.h"
#include "model.h"

/* How a call is made: the first bytes of every input say so, 0 where it is too short. seeds.py writes them. */
struct options {
    struct usm_reading reading;
    struct usm_key key;
    /* The second key, and a place, a byte or a number that the call takes. */
    uint64_t other;
    /* How long two outputs are beside what is needed. */
    uint8_t rooms[2];
    /* On which side the pages lie that may not be touched. */
    enum edge edge;
    /* A number that a harness reads as it likes. */
    uint8_t choice;
    struct bytes body;
};

/* The bytes of an input before its body. */
#define OPTIONS_BYTES 25

struct options read_options(const uint8_t *input, size_t len);

/* How long an output is, where so much is needed: nothing, one less, as much, one more, or any small number. */
size_t room_by(uint8_t choice, size_t needed);

/* Lends bytes that may not be written. There are three such memories. */
struct bytes lend(size_t memory, const struct options *options, struct bytes bytes);

/* Lends an output of some bytes. There are three such memories. */
struct output lend_room(size_t memory, const struct options *options, size_t len);

/* What is lent of an output: where it has no bytes, NULL now and then. */
uint8_t *start_of(const struct output *output, const struct options *options);

/* Ends the run where something does not hold, with its words. */
void expect(int holds, const char *what);

/* The output begins with these bytes, and all behind and beside them is as it was. */
void expect_output(const struct output *output, const uint8_t *bytes, size_t size, const char *what);

/* Notes what a call answered, so that an input that makes a new answer is kept: its number, and a place, a count or a
 * size by its magnitude. The field tells several of a reply apart, up to 8. */
void note(uint8_t number, size_t field, uint64_t value);

#endif
