/* The access monitor of document 01, with Points 1 to 6 of document 02, for C. The functions are in libexports.a, which
 * `rt lib` writes in crates/exports.
 *
 * Bytes are lent as a pointer and a length. A pointer is never null, also where the length is 0, and points to as many readable bytes
 * as the length says. What is lent for writing (history and levels in blank, put and run; answers; positions) overlaps nothing else that
 * the call is lent. Nobody else writes lent bytes during a call. Nothing is kept after it, and no function allocates or has state: threads
 * may call at once on different bytes.
 *
 * A call that needs the tables of a rulebook takes the bytes of the book and loads it. A refused book is answered with its number,
 * 1 to 9 or 19. A call whose own number is not 0 changes no byte.
 *
 * The records of a book have kinds 0 to 7, and 2 begins at kind 8. Kind 7 has one byte, a folder, and marks that folder public: the
 * wall passes requests for it and does not count it among the folders already opened. It still lowers levels, uses rights and takes
 * part in the pipeline, and its firm counts in a standing. A book is refused with 4 if that folder is out of range, with 5 if it was
 * marked before, and with 19 if it is not declared earlier.
 *
 * A step alters its folder: low-water refuses it where it refuses a write, with the same number, and a granted step lowers its person as
 * a read does, whatever rules are in force. So a person's current level is the meet of the first level and the levels of all folders that
 * the person has read or stepped on.
 *
 * Low-water refuses a write, a step or a start with 15 where the rank is too low, also when a compartment is missing besides, and with 21
 * where the rank suffices and a compartment is missing. Both stand in one place of the order of checks: after 14, before 16 and 17.
 *
 * The levels are a second buffer, lent beside the history, that holds these levels ready: 128 bytes, the level of person s in two bytes
 * at 2 * s, the low byte first. Blank sets them to the first levels, and to zero for undeclared persons. A granted read or step sets the
 * person's entry to the meet of the stored entry and the folder's level, whatever rules are in force; nothing else writes them. Low-water
 * and standing take the stored level: after a list of calls from blank it is the one that the history gives, and where somebody else
 * wrote the levels or the history, it counts as it is stored. Levels of another length are answered 20, after 10.
 *
 * A plan is an order in which all jobs of a list are granted, from the history and the levels as they are. A job is four bytes: action,
 * person, target and step. The action is the kind of a request, 16, 17 or 19, the target is its folder, and the step is passed over unless
 * the action is 19. A record that is listed twice is put twice. Which such order is handed back is free. A list of more than 64 jobs, or
 * with a start, or with a record that 12 or 13 would refuse, is answered 22, and so is one whose last job has fewer than four bytes. A list
 * without an order is answered 23; the empty list never is. Where the history and the levels are those that some list put from blank
 * leaves, 23 comes only if every order has a refusal; elsewhere it may come though there is an order. */
#ifndef KWELDABE_H
#define KWELDABE_H

#include <stddef.h>
#include <stdint.h>

#ifdef __cplusplus
extern "C" {
#endif

/* The bytes of a history. */
#define KWELDABE_HISTORY_BYTES 18944

/* The bytes of the levels. */
#define KWELDABE_LEVELS_BYTES 128

/* The most jobs of a list, and the positions of a plan. */
#define KWELDABE_MOST_JOBS 64

/* Makes a history all zero and sets the levels to the first ones: 0, 10, 20, or the number of a refused book. */
uint8_t kweldabe_blank(const uint8_t *book, size_t book_length, uint8_t *history, size_t history_length,
                       uint8_t *levels, size_t levels_length);

/* Loads a book: the number, 0 to 9 or 19, in bits 0 to 7; in bits 8 to 63 the offset of the end record or of the refused one. */
uint64_t kweldabe_load(const uint8_t *book, size_t book_length);

/* How many bytes follow the end record; 0 for a refused book. */
size_t kweldabe_rest_length(const uint8_t *book, size_t book_length);

/* The number of the request at the front of the bytes; nothing is recorded. */
uint8_t kweldabe_judge(const uint8_t *book, size_t book_length, const uint8_t *history, size_t history_length,
                       const uint8_t *levels, size_t levels_length, const uint8_t *request, size_t request_length);

/* The same, and if the number is 0 the request is recorded in the history, and in the levels where it lowers. */
uint8_t kweldabe_put(const uint8_t *book, size_t book_length, uint8_t *history, size_t history_length,
                     uint8_t *levels, size_t levels_length, const uint8_t *request, size_t request_length);

/* Puts one request after another and writes one answer byte for each. The number is in bits 0 to 7, the granted requests in bits 8 to
 * 31 and the refused ones in bits 32 to 55, both modulo 2^24: with fewer than 2^24 request bytes they are exact. */
uint64_t kweldabe_run(const uint8_t *book, size_t book_length, uint8_t *history, size_t history_length,
                      uint8_t *levels, size_t levels_length, const uint8_t *requests, size_t requests_length,
                      uint8_t *answers, size_t answers_length);

/* A person's standing: the number in bits 0 to 7, the stored level in bits 8 to 23, the number of rights used in bits 24 to 31 and
 * that of firms opened in bits 32 to 39. */
uint64_t kweldabe_standing(const uint8_t *book, size_t book_length, const uint8_t *history, size_t history_length,
                           const uint8_t *levels, size_t levels_length, uint8_t person);

/* An order for jobs: 0, 10, 20, 18 if fewer than 64 positions are lent, 22, 23, or the number of a refused book. With 0 the first 64
 * positions are written: each place of the list, from 0, once, in the order of putting, then zeros. With another number, and past these,
 * all positions stay as they are. Nothing else is written. */
uint8_t kweldabe_plan(const uint8_t *book, size_t book_length, const uint8_t *history, size_t history_length,
                      const uint8_t *levels, size_t levels_length, const uint8_t *jobs, size_t jobs_length,
                      uint8_t *positions, size_t positions_length);

#ifdef __cplusplus
}
#endif

#endif
