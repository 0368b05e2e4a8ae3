/* The record player of the VeeR EH1 interrupt reference, as two calls: one gives the player's print of a record, the other its numbers. Link with
   target/staticlib/libveer_eh1.a, for x86-64 Linux, which `tools/build veer_eh1` writes. It needs memcpy and memset of the C library, and nothing else.

   Both calls keep nothing between two calls and use no heap, so they may run in several threads at once, each with arrays of its own. A pointer may be null where
   its length is 0: an empty record, an array with no place. Else it points to as many elements as its length says. What is written to overlaps nothing else that
   the call is handed. */
#ifndef VEER_EH1_H
#define VEER_EH1_H

#include <stddef.h>
#include <stdint.h>

#ifdef __cplusplus
extern "C" {
#endif

/* Up to which request of document 02 the rules are. ./play --version says it too. */
#define VEER_EH1_RULES 8

/* The bytes of the longest record, 8 + 8 * VEER_EH1_EVENTS_MAX. Anything longer is refused. */
#define VEER_EH1_RECORD_MAX 32008

/* The most events of a record. */
#define VEER_EH1_EVENTS_MAX 4000

/* The bytes that are enough for the print of a record with n events. A record that is refused needs VEER_EH1_PRINT_SIZE_OF(0). */
#define VEER_EH1_PRINT_SIZE_OF(n) ((size_t)143 + (size_t)23 * (size_t)(n))

/* The bytes that are enough for the print of any record: VEER_EH1_PRINT_SIZE_OF(VEER_EH1_EVENTS_MAX). */
#define VEER_EH1_PRINT_SIZE 92143

/* Plays a record, and writes what the player prints of it.

   record, record_length: the record's bytes. Any bytes will do: a bad record prints its refusal, as "refused 4 at 0".
   print, print_length: an array for the print.

   If print_length is VEER_EH1_PRINT_SIZE_OF(n) or more, n being the record's events, or 0 where the record is refused, the answer is the print's length. The print
   stands in the first bytes of the array, each line ended by a line feed, with no 0 at the end; the bytes after it stay as they were. If print_length is less, the
   answer is 0, nothing is played, and the array stays as it was.

   This is proved for every record and every array: the answer is printed_length and the array printed_into of crates/playback/specs/Print.antt. No print is
   empty (print-not-empty, crates/playback/proofs/Reading.antt), so an answer of 0 says that the array is too short.

   The call needs some 62 KB of stack, as measured with valgrind's massif; that is not proved. */
size_t veer_eh1_play(const uint8_t *record, size_t record_length, uint8_t *print, size_t print_length);

/* The numbers of a record: its refusal and place, 0 and 0 if it is accepted (the place is the index of the event for refusals 6 and 7, else 0); N, the number of
   sources, and n, the number of events; and of the machine after all events, how many handlers are open, the level, which is the current rank, and the margin,
   from -15 to 15. Refused, all but the first two are 0. */
typedef struct {
    int32_t refusal;
    int32_t place;
    int32_t sources;
    int32_t events;
    int32_t open;
    int32_t level;
    int32_t margin;
} veer_eh1_end;

/* Plays a record, and gives the numbers that the player prints of it.

   record, record_length: the record's bytes.
   answers, answers_length: an array for what each event answers, and how many places it has (not bytes).
   refusals, refusals_length: an array for what each event is refused with, 0 if it is accepted.
   end: where the numbers of the record go. It is not null.

   The answer is the record's refusal, 0 if it is accepted. Accepted, answer and refusal of event i stand in place i of the two arrays, and the places from n on
   stay as they were. Refused, both arrays stay as they were. Refusal 5 says that an array has fewer than n places, which the call asks after questions 1 to 4 of the
   record and before its events are looked at; VEER_EH1_EVENTS_MAX places are always enough.

   This is proved for every record and all arrays: the numbers are numbers_of and the arrays answers_left and refusals_left of
   crates/playback_numbers/specs/Numbers.antt, end as seven_of of crates/veer_eh1/specs/End.antt lists them. The player's print of an accepted record is made of
   exactly these numbers and the kinds of its heads (accepted-prints, crates/playback_numbers/proofs/Prints.antt), and its print of one that is refused, where
   both arrays have VEER_EH1_EVENTS_MAX places or more, is refusal and place (refused-prints).

   The call needs some 42 KB of stack, as measured with valgrind's massif; that is not proved. */
uint8_t veer_eh1_numbers(const uint8_t *record, size_t record_length, uint32_t *answers, size_t answers_length, uint8_t *refusals, size_t refusals_length,
                         veer_eh1_end *end);

#ifdef __cplusplus
}
#endif

#endif
