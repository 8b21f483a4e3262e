/* The C functions of the stepper. Every function answers for any bytes and numbers; a slice is a pointer and a length
   (a pointer that is not null and aligned, also where the length is 0). Build: rt lib, in crates/interface. */
#ifndef SIMBHOKET_H
#define SIMBHOKET_H

#include <stddef.h>
#include <stdint.h>

/* The number that paper 01 gives to bytes that must be one record and no more, where so many conditions wait:
   0, 2 (no record), 3 (restricted form; a filler, which is never stepped alone) or 4 (wrong spot in a block), the lowest that applies. */
uint32_t simbhoket_judge(const uint8_t *record, size_t record_length, uint32_t waiting);

/* The record at a place of a listing: its listing bytes plus 2^32 times its machine bytes; 0 where there is none. */
uint64_t simbhoket_measure(const uint8_t *listing, size_t listing_length, size_t place);

/* Where the record goes that the bytes are, standing at an address: 0 to the next record; 1 plus 2^32 times the target of a
   direct branch; 2 where a register or memory says; 3 where the bytes are no record; 4 of a filler, which goes nowhere. */
uint64_t simbhoket_way(const uint8_t *record, size_t record_length, uint32_t address);

/* A machine's image is 74 bytes: R0 to R15 as little-endian words, N Z C V Q a byte each (0 or 1), a count 0 to 4 of waiting
   conditions, four conditions (0 past the count). An image of another length, with another flag byte, a count above 4, a condition
   above 14 or a byte past the count that is not 0 is number 1, and nothing is changed. */

/* One step: the number, 0 to 7. Machine and memory are changed only by 0. */
uint32_t simbhoket_step(uint8_t *machine, size_t machine_length, const uint8_t *record, size_t record_length,
                        uint8_t *memory, size_t memory_length, uint32_t base);

/* The check of a listing at a base: the number plus 2^32 times the place. */
uint64_t simbhoket_check(const uint8_t *listing, size_t listing_length, uint32_t base);

/* A run of a listing at a base, so many steps at the most: the number, 0 to 10. `answer` is 12 bytes, in which number, place and count
   of the steps done are put as little-endian words. Machine and memory are handed back as after the last good step. An image
   that is none, or an answer of another length, is number 1, and nothing is changed, `answer` neither. */
uint32_t simbhoket_run(uint8_t *machine, size_t machine_length, const uint8_t *listing, size_t listing_length,
                       uint32_t listing_base, uint8_t *memory, size_t memory_length, uint32_t memory_base, uint32_t budget,
                       uint8_t *answer, size_t answer_length);

/* The same run of a running machine, that is a machine with the place of the record at R15 stored beside it; after number 10 it can
   be resumed. `answer` is 16 bytes, in which number, place, count and stored place are put as little-endian words. The stored place is
   the record's at R15, the listing's length at the end address, and 0xFFFFFFFF, "none", where neither stands: also at a filler, and after
   a run that was refused by the tests or the check. All else is as simbhoket_run has it, with 16 in the place of 12. */
uint32_t simbhoket_begin(uint8_t *machine, size_t machine_length, const uint8_t *listing, size_t listing_length,
                         uint32_t listing_base, uint8_t *memory, size_t memory_length, uint32_t memory_base, uint32_t budget,
                         uint8_t *answer, size_t answer_length);

/* A run that goes on from a machine whose stored place is `place`, with a budget and a count of its own. Just after the check a place that
   is not the one of R15 is number 1, place 0; machine, memory and stored place are then as given, as they are where the tests or the
   check refuse. All else is as simbhoket_begin has it. */
uint32_t simbhoket_resume(uint8_t *machine, size_t machine_length, const uint8_t *listing, size_t listing_length,
                          uint32_t listing_base, uint8_t *memory, size_t memory_length, uint32_t memory_base, uint32_t budget,
                          uint32_t place, uint8_t *answer, size_t answer_length);

/* A rehearsal as the program does it: the length of its text, at most 256 bytes, which is put at the front of `room`; what is behind it
   there stays as it was. Where the room is too short for the whole text, all of it stays as it was. */
size_t simbhoket_rehearse(const uint8_t *listing, size_t listing_length, uint8_t *room, size_t room_length);

#endif
