/*
 * A key as it is typed: 1 to 16 hex digits of either case, with 0x in front or nothing.
 */
#ifndef KEY_H
#define KEY_H

#include <stdint.h>
#include <stdlib.h>
#include <string.h>

/* The message about any other word, printed after it. */
#define NO_KEY "is no key: a key is 1 to 16 hex digits, with or without 0x"

/* Reads a key. Returns 1; or 0 where the word is not a key, and then `key` is unchanged. */
static inline int read_key(const char *word, uint64_t *key)
{
    size_t digits;

    if (word[0] == '0' && (word[1] == 'x' || word[1] == 'X'))
        word += 2;
    digits = strspn(word, "0123456789abcdefABCDEF");
    if (digits < 1 || digits > 16 || word[digits] != '\0')
        return 0;
    *key = strtoull(word, NULL, 16);
    return 1;
}

#endif
