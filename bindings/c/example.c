/* Reads a script on standard input, compiles it, runs it on a fresh device and prints the values that the run logged, each with the owner
 * of its port. Interprets the same script, without the image, and prints how that ends. Then reads one register of the device after the run. */
#include <inttypes.h>
#include <stdio.h>
#include <string.h>

#include "runnelopal.h"

int main(void)
{
    /* One record longer than the longest script, so that a script that is too long is refused and not cut off. */
    static uint8_t script[RUNNELOPAL_IMAGE_BYTES + RUNNELOPAL_RECORD_BYTES];
    static uint8_t image[RUNNELOPAL_IMAGE_BYTES];
    static uint64_t log[1024], interpreted_log[1024];
    uint8_t device[RUNNELOPAL_DEVICE_BYTES], interpreted_device[RUNNELOPAL_DEVICE_BYTES], sequencer[RUNNELOPAL_SEQUENCER_BYTES];
    runnelopal_compile_answer compiled;
    runnelopal_run_answer run, interpreted;
    runnelopal_access_answer read;

    size_t length = fread(script, 1, sizeof script, stdin);
    runnelopal_fresh_device(interpreted_device, sizeof interpreted_device);
    interpreted = runnelopal_interpret(script, length, interpreted_device, sizeof interpreted_device, NULL, 0, 100000, interpreted_log, 1024);
    if (runnelopal_is_refusal(interpreted.outcome))
        printf("interpreted: refused %" PRIu32 " at %" PRIu32 "\n", interpreted.outcome, interpreted.place);
    compiled = runnelopal_compile(script, length, image, sizeof image);
    if (compiled.refusal != 0) {
        printf("refused %" PRIu32 " at %" PRIu32 "\n", compiled.refusal, compiled.place);
        return 0;
    }
    printf("%" PRIu32 " words\n", compiled.words);

    runnelopal_fresh_device(device, sizeof device);
    runnelopal_fresh_sequencer(sequencer, sizeof sequencer);
    run = runnelopal_run(image, RUNNELOPAL_RECORD_BYTES * compiled.words, device, sizeof device, sequencer, sizeof sequencer, NULL, 0,
                         100000, log, 1024);
    for (size_t k = 0; k < run.logged; k++)
        printf("logged %08" PRIX32 " %" PRIu32 "\n", runnelopal_entry_value(log[k]), runnelopal_entry_owner(log[k]));
    printf("ended with %" PRIu32 " after %" PRIu32 " steps\n", run.outcome, run.steps);
    printf("outputs: SCI %d, SMI %d, monitor interrupt %d\n", run.outputs.sci, run.outputs.smi, run.outputs.monitor);
    printf("interpreted: ended with %" PRIu32 " after %" PRIu32 " steps\n", interpreted.outcome, interpreted.steps);
    if (run.logged != interpreted.logged || memcmp(log, interpreted_log, sizeof log) != 0 || memcmp(device, interpreted_device, sizeof device) != 0)
        printf("interpreted: a different log or device\n");

    read = runnelopal_access(device, sizeof device, false, 1, 0x2E, 0);
    printf("002E reads %02" PRIX32 ", status %" PRIu32 ", owner %" PRIu32 ", refusal %" PRIu32 "\n", read.value, read.status, read.owner,
           read.refusal);
    return 0;
}
