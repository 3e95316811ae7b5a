/* The solver's calls for C and C++. Link crates/interface/out/libinterface.a, which `rt lib` in crates/interface proves and writes.
   Nothing is required of the bytes, the budget or the lengths. What a caller owes, and no proof sees:
   - a pointer is to as many elements as the length behind it says; they hold values, and nothing else writes them during the call. With
     length 0 any pointer will do, a null pointer too;
   - rooms, places and arrays, which a call writes, don't overlap each other, nor the sheet or text;
   - the thread has 2 MB of stack left; a call needs about 1.5 MB. It allocates nothing and keeps nothing. */
#ifndef THUNYAWORM_H
#define THUNYAWORM_H

#include <stddef.h>
#include <stdint.h>

#ifdef __cplusplus
extern "C" {
#endif

/* A buffer for a sheet: with one byte more than a sheet may have, a longer one shows. */
#define THUNYAWORM_SHEET_BUFFER 16385

/* The bytes that a room must have; of a smaller one a call is refused with 1. */
#define THUNYAWORM_ROOM 45056

/* The bytes that the further room of an export must have; of a smaller one it is refused with 15. */
#define THUNYAWORM_EXPORT 16384

/* The most values that a call on a sheet puts into the places. */
#define THUNYAWORM_PLACES 5

/* What the reader of DIMACS CNF asks for: where clauses start, literals, and places. */
#define THUNYAWORM_CNF_STARTS 577
#define THUNYAWORM_CNF_LITERALS 4608
#define THUNYAWORM_CNF_PLACES 3

/* The first call: the listing stands at the front of the room. For a refusal its number and line are put into the places, and 2 is
   handed back; otherwise the answer (0 UNSAT, 1 UNKNOWN, 2 SPENT, 3 FULL), the atoms, logged clauses, decisions and conflicts, and 5.
   With fewer than five places nothing is done, and 0 is handed back. */
size_t thunyaworm_solve(const uint8_t *sheet, size_t sheet_length, uint32_t budget,
                        uint8_t *room, size_t room_length, uint64_t *places, size_t places_length);

/* The second call: leaves the room as the first does, and hands back how many bytes at its front hold the listing, 0 for a refusal. */
size_t thunyaworm_listing(const uint8_t *sheet, size_t sheet_length, uint32_t budget,
                          uint8_t *room, size_t room_length);

/* What the program prints, the listing or the line of kind 9 of a refusal: leaves it at the front of the room, and hands back how many
   bytes it has. With a room of fewer than 45,056 bytes nothing is done, and 0 is handed back. */
size_t thunyaworm_print(const uint8_t *sheet, size_t sheet_length, uint32_t budget,
                        uint8_t *room, size_t room_length);

/* The export call: leaves the room and fills the places as the first call does, and leaves the goal clauses and then the log as DIMACS
   CNF at the front of the export room; for UNSAT no assignment satisfies them. Hands back how many bytes the text has, 0 for a
   refusal, which changes neither room.
   With fewer than five places nothing is done, and 0 is handed back. */
size_t thunyaworm_export(const uint8_t *sheet, size_t sheet_length, uint32_t budget, uint8_t *room, size_t room_length,
                         uint8_t *export_room, size_t export_length, uint64_t *places, size_t places_length);

/* The reader of such a text. If it is none, 21 (the header) or 22 (the clauses) is put into the places, and 1 is handed back. Otherwise
   0, the atoms and the clauses are put there, and 3 is handed back: clause i, from 0, has the literals from starts[i] up to
   starts[i + 1], each twice its atom's number, and 1 more where it is negated; what is behind the last of them is 0.
   With fewer than 577 starts, 4,608 literals or three places nothing is done, and 0 is handed back. */
size_t thunyaworm_read_cnf(const uint8_t *text, size_t text_length, uint16_t *starts, size_t starts_length,
                           uint16_t *literals, size_t literals_length, uint64_t *places, size_t places_length);

#ifdef __cplusplus
}
#endif

#endif
