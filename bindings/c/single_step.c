/* Reads a script on standard input, compiles it and runs it from fresh word by word: each call has a budget of 1. After each word prints its
 * place, the place of the next word, the loop counters in use, that of the outermost loop first, and the outputs: SCI, SMI and the monitor
 * interrupt. After a read it also prints the value and the owner of the port. Stops at the end of the run, or after STEPS words (100,000),
 * and prints how the run ended. Without the lines that start with STEP, this is what the program `trace` prints.
 * usage: single_step [STEPS] [EVENT]...    an EVENT is a hex number, such as 6000001 for reset 1 */
#include <inttypes.h>
#include <stdio.h>
#include <stdlib.h>

#include "runnelopal.h"

enum { LOG = 1024 };

static void print_step(uint32_t word, const runnelopal_sequencer_answer *after, runnelopal_output_levels outputs)
{
    printf("STEP word %" PRIu32 " next %" PRIu32 " counters", word, after->place);
    for (uint32_t k = 0; k < after->used; k++)
        printf(" %" PRIu32, after->counters[k]);
    printf("%s outputs %d%d%d\n", after->used == 0 ? " none" : "", outputs.sci, outputs.smi, outputs.monitor);
}

int main(int argc, char **argv)
{
    /* One record longer than the longest script, so that a script that is too long is refused and not cut off. */
    static uint8_t script[RUNNELOPAL_IMAGE_BYTES + RUNNELOPAL_RECORD_BYTES];
    static uint8_t image[RUNNELOPAL_IMAGE_BYTES];
    uint8_t device[RUNNELOPAL_DEVICE_BYTES], sequencer[RUNNELOPAL_SEQUENCER_BYTES];

    uint32_t most = argc < 2 ? 100000 : (uint32_t)strtoul(argv[1], NULL, 10);
    size_t event_count = argc < 3 ? 0 : (size_t)argc - 2;
    uint32_t *events = (uint32_t *)malloc((event_count + 1) * sizeof *events);
    if (events == NULL)
        return 2;
    for (size_t k = 0; k < event_count; k++)
        events[k] = (uint32_t)strtoul(argv[k + 2], NULL, 16);

    size_t length = fread(script, 1, sizeof script, stdin);
    runnelopal_compile_answer compiled = runnelopal_compile(script, length, image, sizeof image);
    if (compiled.refusal != 0) {
        printf("REFUSED %" PRIu32 " %" PRIu32 "\n", compiled.refusal, compiled.place);
        free(events);
        return 0;
    }

    runnelopal_fresh_device(device, sizeof device);
    runnelopal_fresh_sequencer(sequencer, sizeof sequencer);
    uint32_t steps = 0, outcome = RUNNELOPAL_BUDGET_SPENT;
    size_t taken = 0, logged = 0;
    while (outcome == RUNNELOPAL_BUDGET_SPENT && steps < most) {
        uint64_t entry = 0;
        uint32_t word = runnelopal_sequencer(sequencer, sizeof sequencer).place;
        runnelopal_run_answer step = runnelopal_run(image, RUNNELOPAL_RECORD_BYTES * compiled.words, device, sizeof device, sequencer,
                                                    sizeof sequencer, events + taken, event_count - taken, 1, &entry, logged < LOG);
        if (runnelopal_is_refusal(step.outcome)) {
            printf("REFUSED %" PRIu32 " %" PRIu32 "\n", step.outcome, step.place);
            free(events);
            return 0;
        }
        if (step.steps == 1) {
            runnelopal_sequencer_answer after = runnelopal_sequencer(sequencer, sizeof sequencer);
            print_step(word, &after, step.outputs);
        }
        if (step.logged == 1)
            printf("READ %08" PRIX32 " %" PRIu32 "\n", runnelopal_entry_value(entry), runnelopal_entry_owner(entry));
        outcome = step.outcome;
        steps += step.steps;
        taken += step.taken;
        logged += step.logged;
    }
    printf("END %" PRIu32 " %" PRIu32 "\n", outcome, steps);
    free(events);
    return 0;
}
