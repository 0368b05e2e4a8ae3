/* Plays one record in several threads at once, each with the stack that docs/LIBRARY.md tells to give it, by both calls; all must come to the same print and numbers.

   usage: threads RECORD */
#include <pthread.h>
#include <stdint.h>
#include <stdio.h>
#include <stdlib.h>
#include <string.h>

#include "veer_eh1.h"

#define THREADS 8
#define ROUNDS 4
#define STACK_SIZE (128 * 1024)

static uint8_t record[VEER_EH1_RECORD_MAX + 1];
static size_t record_length;

/* What a thread came to. */
typedef struct {
    uint8_t print[VEER_EH1_PRINT_SIZE];
    size_t print_length;
    uint32_t answers[VEER_EH1_EVENTS_MAX];
    uint8_t refusals[VEER_EH1_EVENTS_MAX];
    veer_eh1_end end;
} outcome;

static outcome outcomes[THREADS];

static void *run(void *argument) {
    outcome *o = argument;
    for (int round = 0; round < ROUNDS; round++) {
        o->print_length = veer_eh1_play(record, record_length, o->print, VEER_EH1_PRINT_SIZE);
        veer_eh1_numbers(record, record_length, o->answers, VEER_EH1_EVENTS_MAX, o->refusals, VEER_EH1_EVENTS_MAX, &o->end);
    }
    return NULL;
}

int main(int count, char **arguments) {
    pthread_t threads[THREADS];
    pthread_attr_t attributes;
    FILE *file = count == 2 ? fopen(arguments[1], "rb") : NULL;
    if (file == NULL) {
        fputs("usage: threads RECORD\n", stderr);
        return 2;
    }
    record_length = fread(record, 1, sizeof record, file);
    fclose(file);
    if (pthread_attr_init(&attributes) != 0 || pthread_attr_setstacksize(&attributes, STACK_SIZE) != 0) {
        return 2;
    }
    for (int i = 0; i < THREADS; i++) {
        if (pthread_create(&threads[i], &attributes, run, &outcomes[i]) != 0) {
            return 2;
        }
    }
    for (int i = 0; i < THREADS; i++) {
        pthread_join(threads[i], NULL);
    }
    for (int i = 1; i < THREADS; i++) {
        if (memcmp(&outcomes[i], &outcomes[0], sizeof outcomes[0]) != 0) {
            fprintf(stderr, "threads: thread %d came to something else than thread 0\n", i);
            return 1;
        }
    }
    fwrite(outcomes[0].print, 1, outcomes[0].print_length, stdout);
    return 0;
}
