/*
 * How many bytes of stack each function needs: stack FILE.. calls them for the scripts in the files on a stack that was filled with a
 * pattern, and sees how deep it was overwritten. A line for each function: its name and the most that a call took.
 */
#include "epass.h"

#include <stdio.h>
#include <string.h>
#include <ucontext.h>

#define STACK (1 << 19)
#define PATTERN 0xa5
#define STEPS 60

static unsigned char stack[STACK];
static ucontext_t here, there;

static uint8_t text[EPASS_TEXT_BYTES + 1];
static size_t text_length;
static uint32_t scratch[EPASS_SCRATCH_WORDS];
static uint32_t run[EPASS_RUN_WORDS];
static uint32_t answer[EPASS_ANSWER_WORDS];

/* The call that is measured. */
static enum { NOTHING, START, STEP, RUN_ON, REPORT, PLACES, EXEC_NAME, WARNING, POSITION, TOKEN, TABLES, CALLS } call;
static uint32_t number, refusal;

static const char *const names[CALLS] = {"", "epass_start", "epass_step", "epass_run_on", "epass_report", "epass_places", "epass_exec_name", "epass_warning",
                                         "epass_position", "epass_token", "epass_tables"};
static size_t most[CALLS];

static void on_the_stack(void)
{
    switch (call) {
    case START:
        refusal = epass_start(text, text_length, scratch, EPASS_SCRATCH_WORDS, run, EPASS_RUN_WORDS, number, answer, EPASS_ANSWER_WORDS);
        break;
    case STEP:
        refusal = epass_step(text, text_length, scratch, EPASS_SCRATCH_WORDS, run, EPASS_RUN_WORDS, number, answer, EPASS_ANSWER_WORDS);
        break;
    case RUN_ON:
        refusal = epass_run_on(text, text_length, scratch, EPASS_SCRATCH_WORDS, run, EPASS_RUN_WORDS, number, answer, EPASS_ANSWER_WORDS);
        break;
    case REPORT:
        refusal = epass_report(text, text_length, scratch, EPASS_SCRATCH_WORDS, run, EPASS_RUN_WORDS, answer, EPASS_ANSWER_WORDS);
        break;
    case PLACES:
        refusal = epass_places(text, text_length, scratch, EPASS_SCRATCH_WORDS, run, EPASS_RUN_WORDS, answer, EPASS_ANSWER_WORDS);
        break;
    case EXEC_NAME:
        refusal = epass_exec_name(text, text_length, scratch, EPASS_SCRATCH_WORDS, number, answer, EPASS_ANSWER_WORDS);
        break;
    case WARNING:
        refusal = epass_warning(text, text_length, scratch, EPASS_SCRATCH_WORDS, number, answer, EPASS_ANSWER_WORDS);
        break;
    case POSITION:
        refusal = epass_position(text, text_length, number, answer, EPASS_ANSWER_WORDS);
        break;
    case TOKEN:
        refusal = epass_token(text, text_length, number, answer, EPASS_ANSWER_WORDS);
        break;
    case TABLES:
        refusal = epass_tables(text, text_length, scratch, EPASS_SCRATCH_WORDS, answer, EPASS_ANSWER_WORDS);
        break;
    default:
        break;
    }
}

static void measure(int which, uint32_t with)
{
    size_t untouched = 0;
    call = which;
    number = with;
    memset(stack, PATTERN, STACK);
    getcontext(&there);
    there.uc_stack.ss_sp = stack;
    there.uc_stack.ss_size = STACK;
    there.uc_link = &here;
    makecontext(&there, on_the_stack, 0);
    swapcontext(&here, &there);
    while (untouched < STACK && stack[untouched] == PATTERN)
        untouched++;
    if (most[which] < STACK - untouched)
        most[which] = STACK - untouched;
}

/* A run of the text's first exec line: a few steps, one at a time and at each place in turn, then all the others at once. Run-on without
 * a budget is tried before each, since its test of the run goes deepest where the most is left to do. Before it a warning is asked for that is not there, so that
 * every recv is looked at. */
static void measure_text(void)
{
    uint32_t step, count = 1;
    measure(EXEC_NAME, 0);
    measure(WARNING, UINT32_MAX);
    measure(POSITION, UINT32_MAX);
    measure(TOKEN, 0);
    measure(TABLES, 0);
    measure(START, 0);
    for (step = 0; step < STEPS && count != 0; step++) {
        measure(REPORT, 0);
        measure(RUN_ON, 0);
        measure(PLACES, 0);
        count = refusal == 0 ? answer[EPASS_PLACES_COUNT] : 0;
        measure(STEP, count == 0 ? 0 : step % count);
    }
    measure(RUN_ON, 10000);
}

int main(int count, char **words)
{
    int i;
    measure(NOTHING, 0);
    for (i = 1; i < count; i++) {
        FILE *file = fopen(words[i], "rb");
        if (file == NULL) {
            fprintf(stderr, "%s cannot be read\n", words[i]);
            return 1;
        }
        text_length = fread(text, 1, sizeof text, file);
        fclose(file);
        measure_text();
    }
    for (i = START; i < CALLS; i++)
        printf("%s %zu\n", names[i], most[i] - most[NOTHING]);
    return 0;
}
