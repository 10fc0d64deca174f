/* Reads a text script (docs/TEXT.md) on standard input, turns it into records, compiles them, runs them on a fresh device and prints what the
 * program `trace` prints: the values logged, each with the owner of its port, the ending and the number of steps; or the refusal of the
 * compiler. If the text is refused, prints the refusal and the refused line. */
#include <inttypes.h>
#include <stdio.h>

#include "runnelopal.h"

enum { STEPS = 100000, LOG = 1024 };

/* Lines are counted from 0. */
static void print_line(const uint8_t *text, size_t length, size_t line)
{
    size_t k = 0;
    for (; line > 0; k++)
        line -= text[k] == '\n';
    for (; k < length && text[k] != '\n'; k++)
        putchar(text[k]);
    putchar('\n');
}

int main(void)
{
    static uint8_t text[1 << 20]; /* one byte longer than the longest text */
    /* One record longer than the longest script, so that a script of 1,025 records is refused by the compiler, with 1. */
    static uint8_t script[RUNNELOPAL_SCRIPT_BYTES + RUNNELOPAL_RECORD_BYTES];
    static uint8_t image[RUNNELOPAL_IMAGE_BYTES];
    static uint64_t log[LOG];
    uint8_t device[RUNNELOPAL_DEVICE_BYTES], sequencer[RUNNELOPAL_SEQUENCER_BYTES];

    size_t length = fread(text, 1, sizeof text, stdin);
    if (length == sizeof text) {
        fprintf(stderr, "the text has more than %zu bytes\n", sizeof text - 1);
        return 2;
    }
    runnelopal_assemble_answer assembled = runnelopal_assemble(text, length, script, sizeof script);
    if (assembled.refusal != 0) {
        printf("REFUSED %" PRIu32 " %zu\n", assembled.refusal, assembled.place);
        if (assembled.refusal != RUNNELOPAL_RECORDS_TOO_SHORT)
            print_line(text, length, assembled.place);
        return 0;
    }
    runnelopal_compile_answer compiled = runnelopal_compile(script, RUNNELOPAL_RECORD_BYTES * assembled.records, image, sizeof image);
    if (compiled.refusal != 0) {
        printf("REFUSED %" PRIu32 " %" PRIu32 "\n", compiled.refusal, compiled.place);
        return 0;
    }
    runnelopal_fresh_device(device, sizeof device);
    runnelopal_fresh_sequencer(sequencer, sizeof sequencer);
    runnelopal_run_answer run = runnelopal_run(image, RUNNELOPAL_RECORD_BYTES * compiled.words, device, sizeof device, sequencer,
                                               sizeof sequencer, NULL, 0, STEPS, log, LOG);
    for (size_t k = 0; k < run.logged; k++)
        printf("READ %08" PRIX32 " %" PRIu32 "\n", runnelopal_entry_value(log[k]), runnelopal_entry_owner(log[k]));
    printf("END %" PRIu32 " %" PRIu32 "\n", run.outcome, run.steps);
    return 0;
}
