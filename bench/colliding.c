/* Names of five letters that fall together under std's hash with no key of the text's own, one a line.

Usage: colliding COUNT

std hashes by SipHash-1-3, with both keys 0 where nothing begins it. A table joins the halves of the hash, finds the place of a name by its
low bits, and goes on from there. So each name here has a hash whose low 15 bits (there are 2^15 groups for as many names as a text holds) are below 64:
of each 512 names that are tried one is kept. In a table without a key they fill groups one after another, and each is looked for
among all that were put in before it. */
#include <stdint.h>
#include <stdio.h>
#include <stdlib.h>

static uint64_t turned(uint64_t word, int bits) { return word << bits | word >> (64 - bits); }

static uint64_t hash_of(uint64_t last)
{
    uint64_t a = 0x736f6d6570736575, b = 0x646f72616e646f6d, c = 0x6c7967656e657261, d = 0x7465646279746573;
    d ^= last;
    for (int round = 0; round < 4; round++) {
        if (round == 1) {
            a ^= last;
            c ^= 0xff;
        }
        a += b, c += d, b = turned(b, 13) ^ a, d = turned(d, 16) ^ c, a = turned(a, 32);
        c += b, a += d, b = turned(b, 17) ^ c, d = turned(d, 21) ^ a, c = turned(c, 32);
    }
    uint64_t hash = a ^ b ^ c ^ d;
    return hash ^ hash >> 32;
}

int main(int count, char **words)
{
    const char *letters = "abcdefghijklmnopqrstuvwxyzABCDEFGHIJKLMNOPQRSTUVWXYZ0123456789";
    long wanted = count > 1 ? atol(words[1]) : 0;
    for (uint64_t tried = 0; wanted > 0 && tried < 52ull * 62 * 62 * 62 * 62; tried++) {
        char name[6] = {0};
        uint64_t left = tried, last = 5ull << 56;
        for (int place = 0; place < 5; place++) {
            int size = place ? 62 : 52;
            name[place] = letters[left % size];
            left /= size;
            last |= (uint64_t)name[place] << (8 * place);
        }
        if ((hash_of(last) & 0x7fff) < 64) {
            puts(name);
            wanted--;
        }
    }
    return 0;
}
