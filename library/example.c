/* Plays a record by both calls and prints what they answer: the print by veer_eh1_play, then the same lines from the numbers of veer_eh1_numbers.
   With no argument it plays the ten-event record of document 01, and tries arrays that are too short. With the argument `text` or `numbers` it plays a record from
   standard input by the one call or the other. library/run compiles and runs it. */
#include <assert.h>
#include <stdio.h>
#include <stdlib.h>
#include <string.h>

#include "veer_eh1.h"

static_assert(VEER_EH1_RECORD_MAX == 8 + 8 * VEER_EH1_EVENTS_MAX, "the longest record");
static_assert(VEER_EH1_PRINT_SIZE == VEER_EH1_PRINT_SIZE_OF(VEER_EH1_EVENTS_MAX), "the longest print");
static_assert(sizeof(veer_eh1_end) == 28, "seven numbers of 32 bits");

/* Numbers of 32 bits, lowest byte first: the number of events, N, the heads, the values. */
static const uint8_t listing[] = {
    10, 0, 0, 0,
    4, 0, 0, 0,

    0x08, 0x20, 2, 0, /* store to meie2 */
    0x08, 0x00, 2, 0, /* store to meipl2 */
    0, 0, 0, 0,       /* sample */
    0, 0, 5, 0,       /* take */
    0, 0, 9, 0,       /* set mask */
    0, 0, 5, 0,       /* take */
    0, 0, 6, 0,       /* open */
    0, 0, 8, 0,       /* return */
    0, 0, 9, 0,       /* set mask */
    0, 0, 8, 0,       /* return */

    1, 0, 0, 0,
    5, 0, 0, 0,
    4, 0, 0, 0,
    0, 0, 0, 0,
    1, 0, 0, 0,
    0, 0, 0, 0,
    0, 0, 0, 0,
    0, 0, 0, 0,
    0, 0, 0, 0,
    0, 0, 0, 0,
};

#define LISTING_EVENTS 10

static uint8_t print[VEER_EH1_PRINT_SIZE];
static uint32_t answers[VEER_EH1_EVENTS_MAX];
static uint8_t refusals[VEER_EH1_EVENTS_MAX];

static void expect(int holds, const char *what)
{
    if (!holds) {
        fprintf(stderr, "example: %s\n", what);
        exit(1);
    }
}

/* Every byte that no call has written yet. */
#define MARK 0x5a

static void mark(void)
{
    memset(print, MARK, sizeof print);
    memset(answers, MARK, sizeof answers);
    memset(refusals, MARK, sizeof refusals);
}

/* The arrays are as they were from these places on. */
static int untouched(size_t bytes, size_t places)
{
    for (size_t i = bytes; i < sizeof print; i++)
        if (print[i] != MARK)
            return 0;
    for (size_t i = places; i < VEER_EH1_EVENTS_MAX; i++)
        if (answers[i] != 0x01010101u * MARK || refusals[i] != MARK)
            return 0;
    return 1;
}

static void print_text(const uint8_t *record, size_t length, size_t room)
{
    mark();
    size_t printed = veer_eh1_play(record, length, print, room);
    expect(printed != 0 && printed <= room && untouched(printed, 0), "the print did not fit, or bytes after it were changed");
    fwrite(print, 1, printed, stdout);
}

static void print_numbers(const uint8_t *record, size_t length)
{
    mark();
    veer_eh1_end end;
    uint8_t refusal = veer_eh1_numbers(record, length, answers, VEER_EH1_EVENTS_MAX, refusals, VEER_EH1_EVENTS_MAX, &end);
    expect(refusal == end.refusal && untouched(0, (size_t)end.events), "the refusal is not that of the end, or places after the events were changed");
    if (refusal != 0) {
        printf("refused %d at %d\n", (int)end.refusal, (int)end.place);
        return;
    }
    printf("sources %d events %d\n", (int)end.sources, (int)end.events);
    for (int i = 0; i < end.events; i++) {
        const uint8_t *head = record + 8 + 4 * i;
        printf("%d %d %lu %d\n", i, head[2] + 256 * head[3], (unsigned long)answers[i], refusals[i]);
    }
    printf("end open %d level %d margin %d\n", (int)end.open, (int)end.level, (int)end.margin);
}

/* Arrays that are too short by one are left as they were; a null pointer is an empty record or array. */
static void try_the_edges(void)
{
    static const uint8_t no_events[] = {0, 0, 0, 0, 4, 0, 0, 0};
    const size_t n = LISTING_EVENTS;
    veer_eh1_end end;
    mark();
    expect(veer_eh1_play(listing, sizeof listing, print, VEER_EH1_PRINT_SIZE_OF(n) - 1) == 0, "a print that is too short was used");
    expect(veer_eh1_numbers(listing, sizeof listing, answers, n - 1, refusals, n, &end) == 5 && end.refusal == 5, "too few answers were enough");
    expect(veer_eh1_numbers(listing, sizeof listing, answers, n, refusals, n - 1, &end) == 5 && end.refusal == 5, "too few refusals were enough");
    expect(veer_eh1_play(NULL, 0, NULL, 0) == 0, "no print was enough");
    expect(veer_eh1_numbers(NULL, 0, NULL, 0, NULL, 0, &end) == 1 && end.refusal == 1 && end.place == 0 && end.events == 0, "an empty record is not refused with 1");
    expect(veer_eh1_numbers(no_events, sizeof no_events, NULL, 0, NULL, 0, &end) == 0 && end.sources == 4 && end.events == 0, "no events were refused");
    expect(untouched(0, 0), "an array that is too short was used");
    expect(veer_eh1_play(NULL, 0, print, VEER_EH1_PRINT_SIZE_OF(0)) == 15 && memcmp(print, "refused 1 at 0\n", 15) == 0, "an empty record is not refused with 1");
}

int main(int argc, char **argv)
{
    if (argc < 2) {
        try_the_edges();
        print_text(listing, sizeof listing, VEER_EH1_PRINT_SIZE_OF(LISTING_EVENTS));
        print_numbers(listing, sizeof listing);
    } else {
        static uint8_t record[VEER_EH1_RECORD_MAX + 1]; /* with a byte more than any record has it is refused, as a longer one would be */
        size_t length = fread(record, 1, sizeof record, stdin);
        expect(!ferror(stdin), "standard input cannot be read");
        if (strcmp(argv[1], "text") == 0)
            print_text(record, length, VEER_EH1_PRINT_SIZE);
        else
            print_numbers(record, length);
    }
    expect(fflush(stdout) == 0 && !ferror(stdout), "standard output does not take the print");
    return 0;
}
