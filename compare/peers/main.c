/* The loop of samples/loop/ by the proved run and by Unicorn's JIT, in one process and in turn: `peers LISTING CODE`. Both have R0 = n, R13 0x20008000 and
   memory of 32,768 bytes at 0x20000000, all else 0, and end after 10 n steps. What a call takes is taken off: of the proved run one without a step, of
   Unicorn one of a single turn. */
#include <stdint.h>
#include <stdio.h>
#include <stdlib.h>
#include <string.h>
#include <time.h>
#include <unicorn/unicorn.h>
#include "simbhoket.h"

enum { ROUNDS = 9, TURN = 10, MACHINE = 74, ANSWER = 12, MEMORY = 32768, PAGE = 4096, COMPARED = 13, CHECKED = 10000, MOST = 400000000 };
enum { BASE = 0x1000, MEMORY_BASE = 0x20000000, STACK = 0x20008000, OTHER = 0x1E3779B9 };
/* A round takes so long or longer, of either: what is shorter would more often go undisturbed. */
static const double ROUND = 0.2;

struct bytes {
    uint8_t at[PAGE];
    size_t length;
};

static uint8_t memory[MEMORY];

static void fail(const char *what, const char *why)
{
    fprintf(stderr, "peers: %s: %s\n", what, why);
    exit(1);
}

static struct bytes read_file(const char *name)
{
    struct bytes file;
    FILE *in = fopen(name, "rb");
    if (!in)
        fail(name, "can't be read");
    file.length = fread(file.at, 1, PAGE, in);
    if (ferror(in) || file.length == 0 || file.length == PAGE)
        fail(name, "no bytes, or more than a page");
    fclose(in);
    return file;
}

static double now(void)
{
    struct timespec time;
    clock_gettime(CLOCK_MONOTONIC, &time);
    return time.tv_sec + time.tv_nsec / 1e9;
}

static uint32_t word(const uint8_t *at)
{
    return at[0] | at[1] << 8 | at[2] << 16 | (uint32_t)at[3] << 24;
}

static void put_word(uint8_t *at, uint32_t value)
{
    for (int byte = 0; byte < 4; byte++)
        at[byte] = value >> 8 * byte;
}

/* The seconds of a proved run with R0 = turns and R2 = other. The registers are left in the room. */
static double proved(const struct bytes *listing, uint32_t turns, uint32_t other, uint32_t budget, uint32_t room[COMPARED])
{
    uint8_t machine[MACHINE] = {0}, answer[ANSWER];
    put_word(machine, turns);
    put_word(machine + 4 * 2, other);
    put_word(machine + 4 * 13, STACK);
    put_word(machine + 4 * 15, BASE);
    memset(memory, 0, MEMORY);
    double start = now();
    uint32_t number =
        simbhoket_run(machine, MACHINE, listing->at, listing->length, BASE, memory, MEMORY, MEMORY_BASE, budget, answer, ANSWER);
    double took = now() - start;
    if (number != (budget ? 0 : 10) || word(answer + 8) != budget)
        fail("the proved run", "not at its end");
    for (int i = 0; i < COMPARED; i++)
        room[i] = word(machine + 4 * i);
    return took;
}

static void must(uc_err error, const char *what)
{
    if (error != UC_ERR_OK)
        fail(what, uc_strerror(error));
}

static uc_engine *engine_with(const struct bytes *code)
{
    uc_engine *engine;
    must(uc_open(UC_ARCH_ARM, UC_MODE_THUMB | UC_MODE_MCLASS, &engine), "uc_open");
    must(uc_mem_map(engine, BASE, PAGE, UC_PROT_ALL), "uc_mem_map");
    must(uc_mem_map(engine, MEMORY_BASE, MEMORY, UC_PROT_ALL), "uc_mem_map");
    must(uc_mem_write(engine, BASE, code->at, code->length), "uc_mem_write");
    return engine;
}

/* The same by Unicorn; its code is translated at the first call and kept. */
static double by_unicorn(uc_engine *engine, const struct bytes *code, uint32_t turns, uint32_t other, uint32_t room[COMPARED])
{
    uint32_t stack = STACK;
    for (int i = 0; i < COMPARED; i++) {
        uint32_t value = i == 0 ? turns : i == 2 ? other : 0;
        must(uc_reg_write(engine, UC_ARM_REG_R0 + i, &value), "uc_reg_write");
    }
    must(uc_reg_write(engine, UC_ARM_REG_SP, &stack), "uc_reg_write");
    double start = now();
    must(uc_emu_start(engine, BASE + 1, BASE + code->length, 0, 0), "uc_emu_start");
    double took = now() - start;
    for (int i = 0; i < COMPARED; i++)
        must(uc_reg_read(engine, UC_ARM_REG_R0 + i, &room[i]), "uc_reg_read");
    return took;
}

static void same(const uint32_t one[COMPARED], const uint32_t other[COMPARED])
{
    if (one[0] != 0)
        fail("R0", "not 0 at the end");
    if (memcmp(one, other, COMPARED * sizeof *one) != 0)
        fail("R0 to R12", "the proved run and Unicorn end differently");
}

static double least(double one, double other)
{
    return one < other ? one : other;
}

int main(int count, char **words)
{
    if (count != 3) {
        fputs("usage: peers LISTING CODE\n", stderr);
        return 2;
    }
    struct bytes listing = read_file(words[1]), code = read_file(words[2]);
    uc_engine *engine = engine_with(&code);
    uint32_t ours[COMPARED], theirs[COMPARED];
    /* with all else 0 the sums stay 0, so that both do the same is shown from another R2 too */
    for (int more = 0; more < 2; more++) {
        proved(&listing, CHECKED, more * OTHER, TURN * CHECKED, ours);
        by_unicorn(engine, &code, CHECKED, more * OTHER, theirs);
        same(ours, theirs);
    }
    if (ours[5] == 0 || ours[6] == 0 || ours[7] == 0)
        fail("R5 to R7", "0 at the end");
    uint32_t turns = CHECKED, peer_turns = CHECKED;
    while (turns < MOST / 2 && proved(&listing, turns, 0, TURN * turns, ours) < ROUND)
        turns *= 2;
    while (peer_turns < MOST / 2 && by_unicorn(engine, &code, peer_turns, 0, theirs) < ROUND)
        peer_turns *= 2;
    double best[2] = {1e9, 1e9}, call[2] = {1e9, 1e9};
    for (int round = 0; round < ROUNDS; round++) {
        call[0] = least(call[0], proved(&listing, turns, 0, 0, ours));
        call[1] = least(call[1], by_unicorn(engine, &code, 1, 0, theirs));
        best[0] = least(best[0], proved(&listing, turns, 0, TURN * turns, ours));
        best[1] = least(best[1], by_unicorn(engine, &code, peer_turns, 0, theirs));
        same(ours, theirs);
    }
    unsigned major, minor;
    uc_version(&major, &minor);
    double mine = TURN * (double)turns / (best[0] - call[0]), peer = TURN * (peer_turns - 1.0) / (best[1] - call[1]);
    printf("the loop of samples/loop/, steps a second less a call, best of %d in turn:\n", ROUNDS);
    printf("  Unicorn %u.%u, its JIT %12.0f, rounds of %u steps\n", major, minor, peer, TURN * peer_turns);
    printf("  the proved run       %12.0f, rounds of %u steps\n", mine, TURN * turns);
    printf("  proved to Unicorn: %.2f\n", mine / peer);
    uc_close(engine);
    return 0;
}
