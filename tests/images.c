/* Images of a machine worked by hand from include/simbhoket.h: which are none (number 1, nothing changed) and which are good. The record is
   STR R1, [R2], which a good machine does: the word A1B2C3D4 at 20000000. */
#include "simbhoket.h"
#include <stdio.h>
#include <string.h>

enum { N = 64, Z, C, V, Q, COUNT, FIRST, SECOND, FOURTH = SECOND + 2, LENGTH };

static const uint8_t record[] = {0x0D, 0x05, 0x02, 0x01, 0x02, 0x00, 0x00, 0x00};
static const uint8_t stored[] = {0xD4, 0xC3, 0xB2, 0xA1};
static int asked, wrong;
enum { LEAST = 260 }; /* as many as there were when this was last changed: fewer is a loss that must not go unseen */

static void want(const char *what, int length, const char *about, int holds) {
    asked++;
    if (holds) return;
    wrong++;
    printf("images: %s, %d bytes: %s\n", what, length, about);
}

/* The image of R1 = A1B2C3D4, R2 = 20000000, R15 = 1000 with up to three bytes of it put otherwise. */
static void make(uint8_t *image, const int put[6]) {
    memset(image, 0, LENGTH + 1);
    memcpy(image + 4, stored, 4);
    image[11] = 0x20;
    image[61] = 0x10;
    for (int i = 0; i < 6; i += 2)
        if (put[i]) image[put[i]] = (uint8_t)put[i + 1];
}

/* 0 moves R15 to 1004, drops a waiting condition and, where `does`, stores; 1 changes nothing. */
static void try(const char *what, int length, const int put[6], uint32_t number, int does) {
    uint8_t image[LENGTH + 1], expected[LENGTH + 1], memory[4] = {0x11, 0x22, 0x33, 0x44}, kept[4] = {0x11, 0x22, 0x33, 0x44};
    uint8_t answer[12], untouched[12];
    make(image, put);
    memset(answer, 0x5A, 12);
    memset(untouched, 0x5A, 12);
    memcpy(expected, image, sizeof image);
    if (number == 1) {
        uint32_t found = simbhoket_run(image, (size_t)length, record, sizeof record, 0x1000, memory, 4, 0x20000000, 9, answer, 12);
        want(what, length, "the run's number is not 1", found == 1);
        want(what, length, "the run's answer is changed", memcmp(answer, untouched, 12) == 0);
    } else {
        expected[60] = 0x04;
        if (expected[COUNT]) {
            expected[COUNT]--;
            memmove(expected + FIRST, expected + SECOND, 3);
            expected[FOURTH] = 0;
        }
        if (does) memcpy(kept, stored, 4);
    }
    want(what, length, "the step's number", simbhoket_step(image, (size_t)length, record, sizeof record, memory, 4, 0x20000000) == number);
    want(what, length, "the machine", memcmp(image, expected, sizeof image) == 0);
    want(what, length, "memory", memcmp(memory, kept, 4) == 0);
}

int main(void) {
    static const char *const flags[] = {"N", "Z", "C", "V", "Q"};
    static const int neither[] = {2, 3, 16, 128, 254, 255};
    for (int f = 0; f < 5; f++) {
        try(flags[f], LENGTH, (int[6]){N + f, 1}, 0, 1);
        for (int i = 0; i < 6; i++) try(flags[f], LENGTH, (int[6]){N + f, neither[i]}, 1, 0);
    }
    try("Q neither, a condition waiting", LENGTH, (int[6]){Q, 2, COUNT, 1}, 1, 0);
    try("nothing waiting", LENGTH, (int[6]){0}, 0, 1);
    try("0 waiting, Z clear", LENGTH, (int[6]){COUNT, 1}, 0, 0);
    try("0 waiting, Z set", LENGTH, (int[6]){COUNT, 1, Z, 1}, 0, 1);
    try("14 waiting", LENGTH, (int[6]){COUNT, 1, FIRST, 14}, 0, 1);
    try("15 waiting", LENGTH, (int[6]){COUNT, 1, FIRST, 15}, 1, 0);
    try("16 waiting", LENGTH, (int[6]){COUNT, 1, FIRST, 16}, 1, 0);
    try("255 waiting", LENGTH, (int[6]){COUNT, 1, FIRST, 255}, 1, 0);
    try("0 and 15 waiting", LENGTH, (int[6]){COUNT, 2, SECOND, 15}, 1, 0);
    try("0, 0, 0, 1 waiting, Z set", LENGTH, (int[6]){COUNT, 4, FOURTH, 1, Z, 1}, 0, 1);
    try("0, 0, 0, 15 waiting", LENGTH, (int[6]){COUNT, 4, FOURTH, 15}, 1, 0);
    try("a count of 5", LENGTH, (int[6]){COUNT, 5}, 1, 0);
    try("a count of 128", LENGTH, (int[6]){COUNT, 128}, 1, 0);
    try("a count of 255", LENGTH, (int[6]){COUNT, 255}, 1, 0);
    try("a byte past a count of 0", LENGTH, (int[6]){FIRST, 1}, 1, 0);
    try("15 past a count of 0", LENGTH, (int[6]){FIRST, 15}, 1, 0);
    try("a byte past a count of 1", LENGTH, (int[6]){COUNT, 1, SECOND, 1}, 1, 0);
    try("a byte past a count of 3", LENGTH, (int[6]){COUNT, 3, FOURTH, 1}, 1, 0);
    try("short", LENGTH - 1, (int[6]){0}, 1, 0);
    try("long", LENGTH + 1, (int[6]){0}, 1, 0);
    try("none", 0, (int[6]){0}, 1, 0);
    printf("images: %d answers asked, %d wrong\n", asked, wrong);
    return wrong != 0 || asked < LEAST;
}
