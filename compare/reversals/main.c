/* RBIT worked out in three ways: `reversals TIMES` tells how long a call of each takes, `reversals NAME TIMES` makes so many calls of one,
   for a tool that counts its instructions. Each call reverses what the one before it gave, plus 1. */
#include <stdint.h>
#include <stdio.h>
#include <stdlib.h>
#include <string.h>
#include <time.h>

enum { ROUNDS = 9 };

/* The proved function, and the one that it took the place of. */
uint32_t by_swaps(uint32_t x);
uint32_t bit_after_bit(uint32_t x);

/* The second, with the compiler kept from seeing what its turns come to. */
__attribute__((noinline)) static uint32_t turn_by_turn(uint32_t x)
{
    uint32_t reversed = 0;
    for (int done = 0; done < 32; done++) {
        reversed = reversed << 1 | (x & 1);
        x >>= 1;
        __asm__("" : "+r"(reversed));
    }
    return reversed;
}

static const struct way {
    const char *name;
    uint32_t (*reverse)(uint32_t);
} WAYS[] = {{"bit_after_bit", bit_after_bit}, {"by_swaps", by_swaps}, {"turn_by_turn", turn_by_turn}};
enum { COUNT = sizeof WAYS / sizeof *WAYS };

static uint32_t chain(const struct way *way, long times)
{
    uint32_t word = 0;
    while (times-- > 0)
        word = way->reverse(word) + 1;
    return word;
}

static double nanoseconds(void)
{
    struct timespec now;
    clock_gettime(CLOCK_MONOTONIC, &now);
    return now.tv_sec * 1e9 + now.tv_nsec;
}

static int by_size(const void *one, const void *other)
{
    double a = *(const double *)one, b = *(const double *)other;
    return (a > b) - (a < b);
}

static int tell(long times)
{
    double took[COUNT][ROUNDS];
    for (int round = 0; round < ROUNDS; round++) {
        uint32_t first = 0;
        for (int i = 0; i < COUNT; i++) {
            double start = nanoseconds();
            uint32_t end = chain(&WAYS[i], times);
            took[i][round] = nanoseconds() - start;
            first = i == 0 ? end : first;
            if (end != first) {
                fprintf(stderr, "%s ends with %08X, %s with %08X\n", WAYS[0].name, first, WAYS[i].name, end);
                return 1;
            }
        }
    }
    for (int i = 0; i < COUNT; i++) {
        qsort(took[i], ROUNDS, sizeof(double), by_size);
        printf("%s %.2f\n", WAYS[i].name, took[i][ROUNDS / 2] / times);
    }
    return 0;
}

int main(int count, char **words)
{
    if (count == 2 && atol(words[1]) > 0)
        return tell(atol(words[1]));
    for (int i = 0; count == 3 && i < COUNT; i++)
        if (strcmp(words[1], WAYS[i].name) == 0)
            return printf("%08X\n", chain(&WAYS[i], atol(words[2]))) < 0;
    fputs("usage: reversals [NAME] TIMES\n", stderr);
    return 2;
}
