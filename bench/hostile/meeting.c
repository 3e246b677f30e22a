/* Prints so many names whose hashes agree in so many low bits: the hash is the one that names get where no key of their source goes
   before it. So a table of names without a key finds no more in one look than in a list. One half has seven letters, and is hashed as
   one number behind the count; the other has eight, and is hashed as it is. */
#include <stdint.h>
#include <stdio.h>
#include <stdlib.h>
#include <string.h>

enum { SHORT = 7, LONG = 8 };
static const char LETTERS[] = "abcdefghijklmnopqrstuvwxyzABCDEFGHIJKLMNOPQRSTUVWXYZ";
static const uint64_t MULTIPLIER = 0x9e3779b97f4a7c15, BEGIN = 0x243f6a8885a308d3;

static char name[LONG + 1];
static int length;
static long left;
static uint32_t low;

/* The eight bytes, as one number, that are hashed for the name. */
static uint64_t fed(void)
{
    uint64_t number = SHORT;
    if (length == LONG) {
        memcpy(&number, name, sizeof number);
        return number;
    }
    for (int at = 0; at < SHORT; at++) number = number << 8 | (unsigned char)name[at];
    return number;
}

/* The toolchain's hash of eight bytes. */
static uint64_t hashed(void)
{
    unsigned __int128 product = (unsigned __int128)(BEGIN ^ fed()) * (MULTIPLIER ^ 2 * sizeof(uint64_t));
    return (uint64_t)product ^ (uint64_t)(product >> 64);
}

/* The names that begin with the first letters of `name`. */
static void print_from(int at)
{
    if (at == length) {
        uint64_t hash = hashed();
        if (((uint32_t)(hash ^ hash >> 32) & low) == 0) left--, puts(name);
        return;
    }
    for (const char *c = LETTERS; *c && left > 0; c++) {
        name[at] = *c;
        print_from(at + 1);
    }
}

/* So many names of this length. */
static void print_names(int letters, long many)
{
    length = letters;
    left = many;
    name[length] = 0;
    print_from(0);
}

int main(int count, char **words)
{
    if (count != 3) return 2;
    long many = atol(words[1]);
    low = (uint32_t)((UINT64_C(1) << atoi(words[2])) - 1);
    print_names(SHORT, many / 2);
    print_names(LONG, many - many / 2);
    return 0;
}
