/* Reads a script on standard input, compiles it and runs it from fresh in parts, each of which executes at most BUDGET words. Between
 * two parts the device and the sequencer are saved to FILE, loaded from it again and checked; FILE is then removed. Prints what the program
 * `trace` prints for a whole run: the values logged, each with the owner of its port, the ending and the number of steps; or the refusal. All
 * parts together have a budget of 100,000 and a log of 1,024 entries. Then makes one whole run and compares. Exits with 1, and says what
 * differs, if the two are not the same.
 * usage: resume BUDGET FILE [EVENT]...    an EVENT is a hex number, such as 6000001 for reset 1 */
#include <inttypes.h>
#include <stdio.h>
#include <stdlib.h>
#include <string.h>

#include "runnelopal.h"

enum { STEPS = 100000, LOG = 1024 };

typedef struct {
    uint8_t device[RUNNELOPAL_DEVICE_BYTES];
    uint8_t sequencer[RUNNELOPAL_SEQUENCER_BYTES];
    uint64_t log[LOG];
    runnelopal_run_answer sum; /* outcome, place and outputs of the last part; steps, taken and logged of all parts */
} run_state;

static void start(run_state *run)
{
    memset(run, 0, sizeof *run);
    memset(run->log, 0xEE, sizeof run->log); /* the comparison covers the entries that are not filled */
    runnelopal_fresh_device(run->device, sizeof run->device);
    runnelopal_fresh_sequencer(run->sequencer, sizeof run->sequencer);
}

/* One part: with the events that are not taken yet and the room that is left in the log. */
static void resume(run_state *run, const uint8_t *image, size_t image_bytes, const uint32_t *events, size_t event_count, uint32_t budget)
{
    runnelopal_run_answer part = runnelopal_run(image, image_bytes, run->device, sizeof run->device, run->sequencer, sizeof run->sequencer,
                                                events + run->sum.taken, event_count - run->sum.taken, budget, run->log + run->sum.logged,
                                                LOG - run->sum.logged);
    part.steps += run->sum.steps;
    part.taken += run->sum.taken;
    part.logged += run->sum.logged;
    run->sum = part;
}

static bool save(const run_state *run, const char *name)
{
    FILE *file = fopen(name, "wb");
    if (file == NULL)
        return false;
    bool whole = fwrite(run->device, 1, sizeof run->device, file) == sizeof run->device
                 && fwrite(run->sequencer, 1, sizeof run->sequencer, file) == sizeof run->sequencer;
    return fclose(file) == 0 && whole;
}

static bool load(run_state *run, const char *name)
{
    FILE *file = fopen(name, "rb");
    if (file == NULL)
        return false;
    bool whole = fread(run->device, 1, sizeof run->device, file) == sizeof run->device
                 && fread(run->sequencer, 1, sizeof run->sequencer, file) == sizeof run->sequencer && fgetc(file) == EOF;
    fclose(file);
    remove(name);
    return whole && runnelopal_valid_device(run->device, sizeof run->device)
           && runnelopal_valid_sequencer(run->sequencer, sizeof run->sequencer);
}

static int differs(const char *what)
{
    printf("DIFFERS from a whole run: %s\n", what);
    return 1;
}

static int compare(const run_state *parts, const run_state *whole)
{
    const runnelopal_run_answer *a = &parts->sum, *b = &whole->sum;
    int status = 0;
    if (a->outcome != b->outcome || a->place != b->place)
        status = differs("outcome");
    if (a->steps != b->steps)
        status = differs("steps");
    if (a->taken != b->taken)
        status = differs("events taken");
    if (a->logged != b->logged)
        status = differs("values logged");
    if (a->outputs.sci != b->outputs.sci || a->outputs.smi != b->outputs.smi || a->outputs.monitor != b->outputs.monitor)
        status = differs("outputs");
    if (memcmp(parts->log, whole->log, sizeof whole->log) != 0)
        status = differs("log");
    if (memcmp(parts->device, whole->device, sizeof whole->device) != 0)
        status = differs("device");
    if (memcmp(parts->sequencer, whole->sequencer, sizeof whole->sequencer) != 0)
        status = differs("sequencer");
    return status;
}

static void print(const run_state *run)
{
    if (runnelopal_is_refusal(run->sum.outcome)) {
        printf("REFUSED %" PRIu32 " %" PRIu32 "\n", run->sum.outcome, run->sum.place);
        return;
    }
    for (size_t k = 0; k < run->sum.logged; k++)
        printf("READ %08" PRIX32 " %" PRIu32 "\n", runnelopal_entry_value(run->log[k]), runnelopal_entry_owner(run->log[k]));
    printf("END %" PRIu32 " %" PRIu32 "\n", run->sum.outcome, run->sum.steps);
}

int main(int argc, char **argv)
{
    /* One record longer than the longest script, so that a script that is too long is refused and not cut off. */
    static uint8_t script[RUNNELOPAL_IMAGE_BYTES + RUNNELOPAL_RECORD_BYTES];
    static uint8_t image[RUNNELOPAL_IMAGE_BYTES];
    static run_state parts, whole;

    unsigned long budget = argc < 3 ? 0 : strtoul(argv[1], NULL, 10);
    if (budget < 1 || budget > STEPS) {
        fprintf(stderr, "usage: resume BUDGET FILE [EVENT]... (a BUDGET from 1 to %d)\n", STEPS);
        return 2;
    }
    const char *name = argv[2];
    size_t event_count = (size_t)argc - 3;
    uint32_t *events = (uint32_t *)malloc((event_count + 1) * sizeof *events);
    if (events == NULL)
        return 2;
    for (size_t k = 0; k < event_count; k++)
        events[k] = (uint32_t)strtoul(argv[k + 3], NULL, 16);

    size_t length = fread(script, 1, sizeof script, stdin);
    runnelopal_compile_answer compiled = runnelopal_compile(script, length, image, sizeof image);
    if (compiled.refusal != 0) {
        printf("REFUSED %" PRIu32 " %" PRIu32 "\n", compiled.refusal, compiled.place);
        return 0;
    }
    size_t image_bytes = RUNNELOPAL_RECORD_BYTES * compiled.words;

    start(&parts);
    for (;;) {
        uint32_t left = STEPS - parts.sum.steps;
        resume(&parts, image, image_bytes, events, event_count, budget < left ? (uint32_t)budget : left);
        if (parts.sum.outcome != RUNNELOPAL_BUDGET_SPENT || parts.sum.steps == STEPS)
            break;
        if (!save(&parts, name)) {
            perror(name);
            return 2;
        }
        /* Nothing but the file may carry the state over to the next part. */
        memset(parts.device, 0xEE, sizeof parts.device);
        memset(parts.sequencer, 0xEE, sizeof parts.sequencer);
        if (!load(&parts, name)) {
            fprintf(stderr, "%s: not a saved device and sequencer\n", name);
            return 2;
        }
    }
    print(&parts);

    start(&whole);
    resume(&whole, image, image_bytes, events, event_count, STEPS);
    free(events);
    return compare(&parts, &whole);
}
