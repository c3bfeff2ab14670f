/*
 * A controller for a machine whose script is read from a file: controller SCRIPT SEED.
 *
 * It asks which steps are open and has one of them carried out, over and over. A pseudo-random source stands for the relays, whose
 * order no controller knows: with another seed the steps come in another order. For every seed that
 * was tried each outside channel showed the same.
 */
#include "epass.h"

#include <inttypes.h>
#include <stdio.h>
#include <stdlib.h>

#define STEPS 10000

static uint8_t text[EPASS_TEXT_BYTES + 1]; /* a byte more, so that a longer text is refused and not cut */
static size_t text_length;
static uint32_t scratch[EPASS_SCRATCH_WORDS];
static uint32_t run[EPASS_RUN_WORDS];
static uint32_t answer[EPASS_ANSWER_WORDS];

/* The relays: xorshift with 32 bits. */
static uint32_t relays;

static uint32_t next_relay(uint32_t below)
{
    relays ^= relays << 13;
    relays ^= relays >> 17;
    relays ^= relays << 5;
    return relays % below;
}

static int read_text(const char *path)
{
    FILE *file = fopen(path, "rb");
    if (file == NULL)
        return 0;
    text_length = fread(text, 1, sizeof text, file);
    fclose(file);
    return 1;
}

static int refused(uint32_t refusal)
{
    printf("refused %" PRIu32, refusal);
    if (2 <= refusal && refusal <= 15)
        printf(" at %" PRIu32, answer[EPASS_OFFSET]);
    printf(": %s\n", epass_refusal_sentence(refusal));
    return 1;
}

static void print_seen(const uint32_t *seen)
{
    if (seen[0] == EPASS_SEEN_NOTHING)
        return;
    printf(": #%" PRIu32 " ", seen[1]);
    switch (seen[0]) {
    case EPASS_SEEN_LABEL:
        fwrite(text + seen[2], 1, seen[3], stdout);
        break;
    case EPASS_SEEN_CLOSE:
        printf("()");
        break;
    case EPASS_SEEN_PASSED:
        printf("#%" PRIu32, seen[2]);
        if (seen[3] != 0)
            printf(", #%" PRIu32 " cancelled", seen[2]);
        break;
    default:
        printf("cancelled");
    }
}

/* The open places of the last answer, which is one of places; how many there are. */
static uint32_t open_places(uint32_t open[EPASS_PROCESS_PLACES])
{
    uint32_t place, count = 0;
    for (place = 0; place < answer[EPASS_PLACES_COUNT]; place++)
        if (answer[EPASS_PLACES_STEPS + place] == EPASS_PLACE_OPEN)
            open[count++] = place;
    return count;
}

/* Carries out one step at an open place: 0 where there was one, 1 where the run has ended, 2 where a call was refused. */
static int one_step(uint32_t number)
{
    uint32_t open[EPASS_PROCESS_PLACES], count, place;
    uint32_t refusal = epass_places(text, text_length, scratch, EPASS_SCRATCH_WORDS, run, EPASS_RUN_WORDS, answer, EPASS_ANSWER_WORDS);
    if (refusal != 0)
        return 1 + refused(refusal);
    count = open_places(open);
    if (count == 0) {
        printf("%s after %" PRIu32 " steps\n", answer[EPASS_PLACES_COUNT] == 0 ? "done" : "full", number - 1);
        return 1;
    }
    place = open[next_relay(count)];
    refusal = epass_step(text, text_length, scratch, EPASS_SCRATCH_WORDS, run, EPASS_RUN_WORDS, place, answer, EPASS_ANSWER_WORDS);
    if (refusal != 0)
        return 1 + refused(refusal);
    printf("step %" PRIu32 " at %" PRIu32, number, place);
    if (answer[EPASS_STEP_SEEN] == EPASS_STEP_UNCAUGHT) { /* nobody catches the raise: the machine stops as it stands */
        printf("\nuncaught after %" PRIu32 " steps\n", number);
        return 1;
    }
    print_seen(answer + EPASS_STEP_SEEN);
    printf("\n");
    return 0;
}

/* Runs an exec line: 0 where it was run, 1 where there is none, 2 where a call was refused. */
static int run_line(uint32_t line)
{
    uint32_t number;
    int ended = 0;
    uint32_t refusal = epass_exec_name(text, text_length, scratch, EPASS_SCRATCH_WORDS, line, answer, EPASS_ANSWER_WORDS);
    if (refusal == EPASS_NO_LINE)
        return 1;
    if (refusal != 0)
        return 1 + refused(refusal);
    printf("exec %.*s\n", (int)answer[EPASS_NAME_LENGTH], (const char *)text + answer[EPASS_NAME_AT]);
    refusal = epass_start(text, text_length, scratch, EPASS_SCRATCH_WORDS, run, EPASS_RUN_WORDS, line, answer, EPASS_ANSWER_WORDS);
    if (refusal != 0)
        return 1 + refused(refusal);
    for (number = 1; ended == 0 && number <= STEPS; number++)
        ended = one_step(number);
    if (ended == 0)
        printf("stopped after %d steps\n", STEPS);
    return ended == 2 ? 2 : 0;
}

int main(int count, char **words)
{
    uint32_t line = 0;
    int ended = 0;
    if (count != 3 || !read_text(words[1])) {
        fprintf(stderr, "usage: controller SCRIPT SEED, with a file that can be read\n");
        return 2;
    }
    relays = (uint32_t)strtoul(words[2], NULL, 10);
    printf("seed %" PRIu32 "\n", relays);
    relays |= 1; /* xorshift never leaves 0 */
    while (ended == 0)
        ended = run_line(line++);
    return ended == 1 ? 0 : 1;
}
