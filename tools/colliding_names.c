/* Writes names of 8 letters, figures and _ with commas between, and a full stop: names that share a place of each table of
   up to 2^BITS groups, where names are hashed without a key.

       cc -O3 -o colliding_names tools/colliding_names.c; ./colliding_names COUNT BITS > names.lmn

   465900 and 16 give 4 MiB, in a minute or two. A name is hashed by its length and then byte by byte: each is joined with the
   state by xor, and the state is multiplied to 128 bits, of which the halves are joined by xor. A table looks at the halves
   of the 64 bits of the last state, joined by xor. */
#include <stdint.h>
#include <stdio.h>
#include <stdlib.h>

static const uint64_t FIRST = 0x243f6a8885a308d3, MULTIPLIER = 0x9e3779b97f4a7c15;
static const char LETTERS[] = "abcdefghijklmnopqrstuvwxyzABCDEFGHIJKLMNOPQRSTUVWXYZ0123456789_";
static char name[9];
static long wanted;
static uint64_t mask;

static uint64_t folded(uint64_t a, uint64_t b) {
    unsigned __int128 product = (unsigned __int128)a * b;
    return (uint64_t)product ^ (uint64_t)(product >> 64);
}

static uint64_t with_byte(uint64_t state, unsigned char byte) {
    return folded(state ^ (uint64_t)byte * 0x10101, MULTIPLIER ^ 2);
}

static void extend(uint64_t state, int length) {
    if (length == 8) {
        if ((state ^ state >> 32) & mask) return;
        printf("%s%s", name, --wanted ? "," : ".");
        if (!wanted) exit(0);
        return;
    }
    for (int k = 0; k < (length ? 63 : 26); k++) {
        name[length] = LETTERS[k];
        extend(with_byte(state, LETTERS[k]), length + 1);
    }
}

int main(int count, char **words) {
    if (count != 3) return 3;
    wanted = atol(words[1]);
    mask = ((uint64_t)1 << atoi(words[2])) - 1;
    extend(folded(FIRST ^ 8, MULTIPLIER ^ 16), 0);
    return 1;
}
