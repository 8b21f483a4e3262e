/* Runs a listing of samples/tables/ by simbhoket_run: tables LISTING MEMORY BASES.. writes the end as paper 01's program does, and puts
   memory as it was left into a file. BASES are the listing's base, memory's base, R13 and the budget; R15 is the listing's base. */
#include "simbhoket.h"
#include <stdio.h>
#include <stdlib.h>

enum { NAME, LISTING, MEMORY, BASE, MEMORY_BASE, SP, BUDGET, AFTER, ARGUMENTS };
enum { FLAGS = 64, LENGTH = 74, MOST = 1048576 };

static uint8_t listing[65536], memory[MOST];

static size_t read_file(const char *name, uint8_t *bytes, size_t most) {
    FILE *file = fopen(name, "rb");
    if (!file) {
        perror(name);
        exit(2);
    }
    size_t length = fread(bytes, 1, most, file);
    fclose(file);
    return length;
}

static void put(uint8_t *bytes, uint32_t word) {
    for (int i = 0; i < 4; i++) bytes[i] = (uint8_t)(word >> 8 * i);
}

static uint32_t get(const uint8_t *bytes) {
    return bytes[0] | (uint32_t)bytes[1] << 8 | (uint32_t)bytes[2] << 16 | (uint32_t)bytes[3] << 24;
}

int main(int count, char **words) {
    if (count != ARGUMENTS) {
        fprintf(stderr, "usage: tables LISTING MEMORY BASE MEMORY-BASE R13 BUDGET AFTER\n");
        return 2;
    }
    uint8_t machine[LENGTH] = {0}, answer[12];
    uint32_t base = (uint32_t)strtoul(words[BASE], NULL, 16), memory_base = (uint32_t)strtoul(words[MEMORY_BASE], NULL, 16);
    uint32_t budget = (uint32_t)strtoul(words[BUDGET], NULL, 10);
    size_t length = read_file(words[LISTING], listing, sizeof listing), size = read_file(words[MEMORY], memory, MOST);
    put(machine + 4 * 13, (uint32_t)strtoul(words[SP], NULL, 16));
    put(machine + 4 * 15, base);
    uint32_t number = simbhoket_run(machine, LENGTH, listing, length, base, memory, size, memory_base, budget, answer, sizeof answer);
    if (number != get(answer)) return 1;
    printf("end %u steps %u\n", (unsigned)number, (unsigned)get(answer + 8));
    for (int i = 0; i < 16; i++) printf("R%d %08X\n", i, (unsigned)get(machine + 4 * i));
    printf("NZCVQ %d%d%d%d%d\n", machine[FLAGS], machine[FLAGS + 1], machine[FLAGS + 2], machine[FLAGS + 3], machine[FLAGS + 4]);
    FILE *after = fopen(words[AFTER], "wb");
    return !after || fwrite(memory, 1, size, after) != size || fclose(after);
}
