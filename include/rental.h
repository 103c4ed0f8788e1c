/* What C can call of the rule engine. A text or a table is its first element and its length; tables must not overlap; nothing is
   kept or freed. docs/SPECIFICATION.md says
   what each function does for every input (sections 9 and 10), and docs/REFUSALS.md has the refusals, their numbers and their places. */
#ifndef RENTAL_H
#define RENTAL_H

#include <stddef.h>
#include <stdint.h>

/* The check of a rule book: 0 when it is accepted, else number * 2^32 + p, the refusal's number and its place. */
uint64_t rental_check_book(const uint8_t *book, size_t length);

/* One move of an agent on a contents table: 0 when it fires, else number * 2^48 + p * 2^24 + q, and the table is as it was. `picks` are the elements
   that the move's choices (nodes of kind 28) take, one for each in the order in which they are met, any number of them: a choice without a pick and a
   pick without a choice are refused. A pick is an element's number in 64 bits, so that no number is cut: any number not below the book's count of
   elements is refused, 9 with p its index + 1, at most 16,777,215. Picks are only read, and `picks` may be any pointer when picks_length is 0. `lent`
   is how many instruction records the caller has; 256 are enough. */
uint64_t rental_move(const uint8_t *book, size_t length, uint16_t *contents, size_t contents_length, size_t agent, const uint64_t *picks,
                     size_t picks_length, size_t lent);

/* The two functions below run a log and give its label tally: tally[0] is how many labels were issued, one for each import, and tally[1] how many were
   returned, each label once in a move. The moves that fired count: all when the log is accepted or refused by 17, those before the refused move when
   one is refused (11 to 15, 18, 19), and none, which gives 0 and 0, when there is a refusal before the first move. Both numbers are written by every
   call; `tally` must point to two words that overlap no text and no table. Before there was a tally these functions were rental_run and
   rental_report: the names are new so that a program built for those fails at the link rather than at run time. */

/* The run of a log from the start of its book: 0 when it is accepted, else number * 2^48 + p * 2^24 + q. The tables get the contents reached and, for
   each location, the moves that read it and that write it as bits. */
uint64_t rental_run_log(const uint8_t *book, size_t book_length, const uint8_t *log, size_t log_length, uint16_t *contents, size_t contents_length,
                        uint64_t *readers, size_t readers_length, uint64_t *writers, size_t writers_length, size_t lent, uint64_t tally[2]);

/* What the program `rental` prints for an input, and how many bytes that are; the tally is not printed. For an output of fewer than 51,225 bytes
   nothing is run, nothing is written to it, and this gives 0, with a tally of 0 and 0. */
size_t rental_report_input(const uint8_t *input, size_t length, uint8_t *output, size_t output_length, uint64_t tally[2]);

#endif
