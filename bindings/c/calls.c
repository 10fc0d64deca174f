/* Tests of every function of runnelopal.h: each refusal with its place and the order of refusals, that a refusal changes nothing, each ending
 * of a run, events and outputs, runs in parts, valid and not valid bytes, text scripts and listings, null pointers. Lists each SCRIPT and reads
 * its listing. Prints each check that fails, and the number of checks. Exits with 1 if one fails. tests/calls.rs of bindings/rust makes the same
 * tests of the Rust wrapper.
 * usage: calls [SCRIPT]... */
#include <inttypes.h>
#include <stdio.h>
#include <string.h>

#include "runnelopal.h"

enum { DEVICE = RUNNELOPAL_DEVICE_BYTES, SEQUENCER = RUNNELOPAL_SEQUENCER_BYTES, RECORD = RUNNELOPAL_RECORD_BYTES, MOST = 1024 };

static unsigned long checks, failures;

/* What is tested now: the name of the test, and how often it has set up its buffers. */
static const char *test;
static unsigned long item;

static void check(bool holds, const char *what, int line)
{
    checks++;
    if (!holds) {
        failures++;
        printf("calls.c:%d: %s, item %lu: %s\n", line, test, item, what);
    }
}

#define CHECK(holds) check(holds, #holds, __LINE__)

/* ---- Scripts and images */

typedef struct {
    uint8_t bytes[RECORD * (MOST + 2)];
    size_t length;
} records;

static void put(records *list, uint32_t mark, uint32_t kind, uint32_t width, uint32_t port, uint32_t target, uint32_t value)
{
    const uint32_t bytes[RECORD] = {mark,   mark >> 8,   kind,  width,      port,        port >> 8,
                                    target, target >> 8, value, value >> 8, value >> 16, value >> 24};
    for (size_t k = 0; k < RECORD; k++)
        list->bytes[list->length + k] = (uint8_t)bytes[k];
    list->length += RECORD;
}

static void record(records *script, uint32_t kind, uint32_t width, uint32_t port, uint32_t value)
{
    put(script, RUNNELOPAL_SCRIPT_MARK, kind, width, port, 0, value);
}

static void word(records *image, uint32_t kind, uint32_t width, uint32_t port, uint32_t target, uint32_t value)
{
    put(image, RUNNELOPAL_WORD_MARK, kind, width, port, target, value);
}

static void write_record(records *script, uint32_t width, uint32_t port, uint32_t value)
{
    record(script, RUNNELOPAL_SCRIPT_WRITE, width, port, value);
}

static void read_record(records *script, uint32_t width, uint32_t port)
{
    record(script, RUNNELOPAL_SCRIPT_READ, width, port, 0);
}

/* Register `index` of the configuration or the monitor, through a pair of ports. */
static void indexed_write(records *script, uint32_t port, uint32_t index, uint32_t value)
{
    write_record(script, 1, port, index);
    write_record(script, 1, port + 1, value);
}

enum {
    CONFIGURATION = 0x002E, MONITOR = 0x0A70,
    SMI_CMD = 0xAC06, PM1A_STS = 0xAC08, PM1A_EN = 0xAC0A, SETUP_IDX = 0xAC0E, GPE0_STS = 0xAC10, GPE0_EN = 0xAC12, SETUP_DATA = 0xAC14,
    TIMER = 0xAC18, RTC_STS = 0x0400
};

/* Puts the monitor at 0A70h and enables its interrupt for both voltages. */
static void enable_monitor(records *script)
{
    write_record(script, 1, CONFIGURATION, 0x55);
    indexed_write(script, CONFIGURATION, 0x07, 0x0A);
    indexed_write(script, CONFIGURATION, 0x60, 0x0A);
    indexed_write(script, CONFIGURATION, 0x30, 0x01);
    indexed_write(script, MONITOR, 0x7C, 0x44);
    indexed_write(script, MONITOR, 0x7E, 0xFF);
}

static const uint32_t ALARM = RUNNELOPAL_EVENT(RUNNELOPAL_EVENT_RTC_ALARM, 0);
static const uint32_t NO_TICKS = RUNNELOPAL_EVENT(RUNNELOPAL_EVENT_TICKS, 0); /* only settles the device; for padding */

/* ---- Calls on one set of buffers. Each buffer has room after its end, so that a write beyond it is found. */

typedef struct {
    records script, image;
    uint8_t device[DEVICE + 8];
    size_t device_bytes;
    uint8_t sequencer[SEQUENCER + 8];
    size_t sequencer_bytes;
    uint32_t events[4098];
    size_t event_count;
    uint32_t budget;
    uint64_t log[16];
    size_t log_count;
} lent;

static runnelopal_run_answer run(lent *all)
{
    return runnelopal_run(all->image.bytes, all->image.length, all->device, all->device_bytes, all->sequencer, all->sequencer_bytes,
                          all->events, all->event_count, all->budget, all->log, all->log_count);
}

static runnelopal_run_answer interpret(lent *all)
{
    return runnelopal_interpret(all->script.bytes, all->script.length, all->device, all->device_bytes, all->events, all->event_count,
                                all->budget, all->log, all->log_count);
}

static runnelopal_compile_answer compile(lent *all)
{
    runnelopal_compile_answer compiled;
    memset(&all->image, 0xC6, sizeof all->image);
    compiled = runnelopal_compile(all->script.bytes, all->script.length, all->image.bytes, RUNNELOPAL_IMAGE_BYTES);
    all->image.length = RECORD * compiled.words;
    return compiled;
}

static bool filled(const uint8_t *bytes, size_t length, uint8_t with)
{
    for (size_t k = 0; k < length; k++)
        if (bytes[k] != with)
            return false;
    return true;
}

static bool off(runnelopal_output_levels outputs)
{
    return !outputs.sci && !outputs.smi && !outputs.monitor;
}

static bool levels(runnelopal_output_levels outputs, bool sci, bool smi, bool monitor)
{
    return outputs.sci == sci && outputs.smi == smi && outputs.monitor == monitor;
}

static bool same_answer(runnelopal_run_answer a, runnelopal_run_answer b)
{
    return a.outcome == b.outcome && a.place == b.place && a.steps == b.steps && a.taken == b.taken && a.logged == b.logged
           && levels(a.outputs, b.outputs.sci, b.outputs.smi, b.outputs.monitor);
}

/* An empty script and image, a fresh device and sequencer, no events, a log of eight entries. */
static void fresh(lent *all)
{
    item++;
    memset(all, 0, sizeof *all);
    memset(all->device, 0xD5, sizeof all->device);
    memset(all->sequencer, 0x59, sizeof all->sequencer);
    memset(all->log, 0xEE, sizeof all->log);
    all->device_bytes = DEVICE;
    all->sequencer_bytes = SEQUENCER;
    all->log_count = 8;
    all->budget = 1000;
    runnelopal_fresh_device(all->device, DEVICE);
    runnelopal_fresh_sequencer(all->sequencer, SEQUENCER);
}

/* The same with a device whose SCI and monitor interrupt are on, a script and its image that would change all buffers, and an event. A
 * refusal that does not hide the outputs or does not keep the buffers is then found. */
static void busy(lent *all)
{
    runnelopal_run_answer made;
    fresh(all);
    enable_monitor(&all->script);
    write_record(&all->script, 1, SMI_CMD, 1);
    write_record(&all->script, 2, PM1A_EN, RTC_STS);
    all->events[0] = ALARM;
    all->events[1] = RUNNELOPAL_EVENT(RUNNELOPAL_EVENT_SENSOR, RUNNELOPAL_SENSOR_VTR);
    all->event_count = 2;
    compile(all);
    made = run(all);
    CHECK(made.outcome == RUNNELOPAL_HALTED && made.taken == 2 && levels(made.outputs, true, false, true));

    all->script.length = 0;
    record(&all->script, RUNNELOPAL_SCRIPT_REPEAT, 0, 0, 3);
    read_record(&all->script, 4, TIMER);
    record(&all->script, RUNNELOPAL_SCRIPT_END, 0, 0, 0);
    compile(all);
    runnelopal_fresh_sequencer(all->sequencer, SEQUENCER);
    all->events[0] = RUNNELOPAL_EVENT(RUNNELOPAL_EVENT_TICKS, 7);
    all->event_count = 1;
    all->budget = 4;
}

static bool refused(runnelopal_run_answer answer, uint32_t number, uint32_t place)
{
    return answer.outcome == number && answer.place == place && answer.steps == 0 && answer.taken == 0 && answer.logged == 0
           && off(answer.outputs) && runnelopal_is_refusal(answer.outcome);
}

/* The calls are refused and change nothing: not one byte of `all`. */
static void check_refused_run(lent *all, uint32_t number, uint32_t place)
{
    static lent before;
    memcpy(&before, all, sizeof before);
    CHECK(refused(run(all), number, place));
    CHECK(memcmp(&before, all, sizeof before) == 0);
}

static void check_refused_interpretation(lent *all, uint32_t number, uint32_t place)
{
    static lent before;
    memcpy(&before, all, sizeof before);
    CHECK(refused(interpret(all), number, place));
    CHECK(memcmp(&before, all, sizeof before) == 0);
}

static void check_refused_compile(lent *all, size_t image_bytes, uint32_t number, uint32_t place)
{
    static lent before;
    memcpy(&before, all, sizeof before);
    runnelopal_compile_answer answer = runnelopal_compile(all->script.bytes, all->script.length, all->image.bytes, image_bytes);
    CHECK(answer.refusal == number && answer.place == place && answer.words == 0);
    CHECK(memcmp(&before, all, sizeof before) == 0);
}

/* ---- Text scripts and listings. A call writes to the front of `written`, which is longer than the buffer that the call gets. */

enum { TEXT = 1 << 17, UNWRITTEN = 0xB7 };

static uint8_t text[TEXT], written[TEXT + RECORD];
static size_t text_bytes;

static void put_bytes(const char *bytes, size_t length)
{
    memcpy(text + text_bytes, bytes, length);
    text_bytes += length;
}

static void put_text(const char *string)
{
    put_bytes(string, strlen(string));
}

static void put_times(size_t times, char byte)
{
    memset(text + text_bytes, byte, times);
    text_bytes += times;
}

static void set_text(const char *string)
{
    item++;
    text_bytes = 0;
    put_text(string);
}

static runnelopal_assemble_answer assemble(size_t record_bytes)
{
    memset(written, UNWRITTEN, sizeof written);
    return runnelopal_assemble(text, text_bytes, written, record_bytes);
}

/* The text is refused, whatever the length of the record buffer. */
static void check_refused_text(uint32_t number, size_t place)
{
    static const size_t lengths[] = {TEXT, RECORD, 0};
    for (size_t k = 0; k < sizeof lengths / sizeof *lengths; k++) {
        runnelopal_assemble_answer answer = assemble(lengths[k]);
        CHECK(answer.refusal == number && answer.place == place && answer.records == 0);
        CHECK(filled(written, sizeof written, UNWRITTEN));
    }
}

/* The text is read into these records, if the buffer has room for them. */
static void check_assembled(const uint8_t *expected, size_t length)
{
    const size_t lengths[] = {length, length + 1, length + RECORD, TEXT};
    for (size_t k = 0; k < sizeof lengths / sizeof *lengths; k++) {
        runnelopal_assemble_answer answer = assemble(lengths[k]);
        CHECK(answer.refusal == 0 && answer.place == 0 && answer.records == length / RECORD);
        CHECK(memcmp(written, expected, length) == 0);
        CHECK(filled(written + length, sizeof written - length, UNWRITTEN));
    }
    for (size_t less = 1; less <= length && less <= RECORD + 1; less++) {
        runnelopal_assemble_answer answer = assemble(length - less);
        CHECK(answer.refusal == RUNNELOPAL_RECORDS_TOO_SHORT && answer.place == 0 && answer.records == 0);
        CHECK(filled(written, sizeof written, UNWRITTEN));
    }
}

static runnelopal_list_answer list(const records *script, size_t length)
{
    memset(written, UNWRITTEN, sizeof written);
    return runnelopal_list(script->bytes, script->length, written, length);
}

/* The lister refuses the script, whatever the length of the text buffer. */
static void check_refused_listing(const records *script, uint32_t number, uint32_t place)
{
    static const size_t lengths[] = {TEXT, 1, 0};
    for (size_t k = 0; k < sizeof lengths / sizeof *lengths; k++) {
        runnelopal_list_answer answer = list(script, lengths[k]);
        CHECK(answer.refusal == number && answer.place == place && answer.length == 0);
        CHECK(filled(written, sizeof written, UNWRITTEN));
    }
}

/* `text` is the listing of the script, if the buffer has room for it. Reading it gives the script. */
static void check_listed(const records *script)
{
    const size_t lengths[] = {text_bytes, text_bytes + 1, TEXT};
    for (size_t k = 0; k < sizeof lengths / sizeof *lengths; k++) {
        runnelopal_list_answer answer = list(script, lengths[k]);
        CHECK(answer.refusal == 0 && answer.place == 0 && answer.length == text_bytes);
        CHECK(memcmp(written, text, text_bytes) == 0);
        CHECK(filled(written + text_bytes, sizeof written - text_bytes, UNWRITTEN));
    }
    for (size_t less = 1; less <= text_bytes && less <= 40; less++) {
        runnelopal_list_answer answer = list(script, text_bytes - less);
        CHECK(answer.refusal == RUNNELOPAL_TEXT_TOO_SHORT && answer.place == 0 && answer.length == 0);
        CHECK(filled(written, sizeof written, UNWRITTEN));
    }
    check_assembled(script->bytes, script->length);
}

/* Lists a script and reads the listing. The lister refuses what the compiler refuses with 1 to 4. */
static void check_round_trip(const records *script)
{
    static uint8_t image[RUNNELOPAL_IMAGE_BYTES];
    runnelopal_compile_answer compiled = runnelopal_compile(script->bytes, script->length, image, sizeof image);
    if (RUNNELOPAL_BAD_LENGTH <= compiled.refusal && compiled.refusal <= RUNNELOPAL_BAD_FIELD) {
        check_refused_listing(script, compiled.refusal, compiled.place);
        return;
    }
    runnelopal_list_answer answer = list(script, RUNNELOPAL_TEXT_BYTES);
    CHECK(answer.refusal == 0 && answer.length <= RUNNELOPAL_TEXT_BYTES);
    memcpy(text, written, answer.length);
    text_bytes = answer.length;
    check_listed(script);
}

/* Every call on a device refuses it with 11. */
static void check_bad_device(lent *all)
{
    static lent before;
    check_refused_run(all, RUNNELOPAL_BAD_STATE, 0);
    check_refused_interpretation(all, RUNNELOPAL_BAD_STATE, 0);
    memcpy(&before, all, sizeof before);
    /* 11 comes before 4 and before 12. */
    for (uint32_t width = 1; width <= 3; width++) {
        runnelopal_access_answer access = runnelopal_access(all->device, all->device_bytes, true, width, 0x1234, 1);
        CHECK(access.refusal == RUNNELOPAL_BAD_STATE && access.place == 0);
        CHECK(access.status == 0 && access.value == 0 && access.owner == 0 && off(access.outputs));
    }
    for (uint32_t kind = 0; kind <= 1; kind++) {
        runnelopal_outputs_answer event = runnelopal_event(all->device, all->device_bytes, RUNNELOPAL_EVENT(kind, 0));
        CHECK(event.refusal == RUNNELOPAL_BAD_STATE && event.place == 0 && off(event.outputs));
    }
    runnelopal_outputs_answer outputs = runnelopal_outputs(all->device, all->device_bytes);
    CHECK(outputs.refusal == RUNNELOPAL_BAD_STATE && outputs.place == 0 && off(outputs.outputs));
    CHECK(!runnelopal_valid_device(all->device, all->device_bytes));
    CHECK(memcmp(&before, all, sizeof before) == 0);
}

static void check_bad_sequencer(lent *all)
{
    runnelopal_sequencer_answer answer = runnelopal_sequencer(all->sequencer, all->sequencer_bytes);
    CHECK(answer.refusal == RUNNELOPAL_BAD_STATE && answer.place == 0 && answer.used == 0);
    for (size_t k = 0; k < RUNNELOPAL_COUNTERS; k++)
        CHECK(answer.counters[k] == 0);
    CHECK(!runnelopal_valid_sequencer(all->sequencer, all->sequencer_bytes));
    check_refused_run(all, RUNNELOPAL_BAD_STATE, 0);
}

static void set_sequencer(lent *all, uint32_t place, uint32_t used, const uint32_t *counters)
{
    uint32_t numbers[2 + RUNNELOPAL_COUNTERS] = {place, used};
    memcpy(numbers + 2, counters, sizeof(uint32_t) * RUNNELOPAL_COUNTERS);
    for (size_t k = 0; k < SEQUENCER; k++)
        all->sequencer[k] = (uint8_t)(numbers[k / 4] >> 8 * (k % 4));
}

/* ---- The tests */

static lent all, other; /* too large for the stack of a small machine */

static void numbers(void)
{
    for (uint32_t outcome = 0; outcome <= 30; outcome++)
        CHECK(runnelopal_is_refusal(outcome) == (1 <= outcome && outcome <= 12));
    CHECK(!runnelopal_is_refusal(UINT32_MAX));
    CHECK(runnelopal_entry_value(0x0000000489ABCDEF) == 0x89ABCDEF && runnelopal_entry_owner(0x0000000489ABCDEF) == RUNNELOPAL_OWNER_KEY);
    CHECK(runnelopal_entry_value(UINT64_MAX) == UINT32_MAX && runnelopal_entry_owner(UINT64_MAX) == UINT32_MAX);
    CHECK(RUNNELOPAL_EVENT(RUNNELOPAL_EVENT_TICKS, 1000) == 0x010003E8);
    CHECK(RUNNELOPAL_EVENT(RUNNELOPAL_EVENT_PIN, 2 | RUNNELOPAL_PIN_HIGH) == 0x0200000A);
    CHECK(RUNNELOPAL_EVENT(RUNNELOPAL_EVENT_PIN, 2 & RUNNELOPAL_PIN_NUMBER) == 0x02000002);
    CHECK(RUNNELOPAL_EVENT(RUNNELOPAL_EVENT_RESET, RUNNELOPAL_RESET_VTR) == 0x06000002);
    CHECK(RUNNELOPAL_EVENT(256, 0) == UINT32_MAX && RUNNELOPAL_EVENT(1, 0x1000000) == UINT32_MAX && RUNNELOPAL_EVENT(1, -1) == UINT32_MAX);
}

/* Refusals 1 to 9 of a script, from the compiler and from the interpreter. */
static void check_script(lent *call, uint32_t number, uint32_t place)
{
    check_refused_compile(call, RUNNELOPAL_IMAGE_BYTES, number, place);
    check_refused_interpretation(call, number, place);
    /* The script comes before the device and the events, and before the length of the buffer. */
    check_refused_compile(call, 0, number, place);
    call->device[0] = 2;
    call->events[0] = 0;
    check_refused_interpretation(call, number, place);
}

/* A script that the compiler refuses with 5 to 8 has a listing. */
static void check_blocks(lent *call, uint32_t number, uint32_t place)
{
    check_script(call, number, place);
    check_round_trip(&call->script);
}

static void script_lengths(void)
{
    static const size_t lengths[] = {1, 11, 13, RECORD * MOST - 1, RECORD * MOST + 1, RECORD * MOST + RECORD};
    for (size_t k = 0; k < sizeof lengths / sizeof *lengths; k++) {
        busy(&all);
        memset(all.script.bytes, 0, sizeof all.script.bytes); /* the length comes before the marks */
        all.script.length = lengths[k];
        check_script(&all, RUNNELOPAL_BAD_LENGTH, 0);
        check_refused_listing(&all.script, RUNNELOPAL_BAD_LENGTH, 0);
    }
}

/* Record 2 of a script has this fault. Its record 3 has all of them. */
static void record_fault(uint32_t mark, uint32_t kind, uint32_t width, uint32_t port, uint32_t target, uint32_t value, uint32_t number)
{
    busy(&all);
    all.script.length = 0;
    read_record(&all.script, 1, 0x2E);
    read_record(&all.script, 1, 0x2E);
    put(&all.script, mark, kind, width, port, target, value);
    put(&all.script, 0, 0, 3, 0, 1, 1);
    check_script(&all, number, 2);
    /* The lister does not check blocks, so it goes on to record 3. */
    if (number == RUNNELOPAL_MISPLACED)
        check_refused_listing(&all.script, RUNNELOPAL_WRONG_MARK, 3);
    else
        check_refused_listing(&all.script, number, 2);
}

static void record_faults(void)
{
    const uint32_t mark = RUNNELOPAL_SCRIPT_MARK;
    record_fault(RUNNELOPAL_WORD_MARK, RUNNELOPAL_SCRIPT_READ, 1, 0, 0, 0, RUNNELOPAL_WRONG_MARK);
    record_fault(mark ^ 0x0001, RUNNELOPAL_SCRIPT_READ, 1, 0, 0, 0, RUNNELOPAL_WRONG_MARK);
    record_fault(mark ^ 0x8000, 9, 3, 0, 1, 1, RUNNELOPAL_WRONG_MARK); /* before the kind and the fields */
    record_fault(mark, 0, 1, 0, 0, 0, RUNNELOPAL_BAD_KIND);
    record_fault(mark, 8, 3, 0, 1, 0, RUNNELOPAL_BAD_KIND); /* before the fields */
    record_fault(mark, 255, 1, 0, 0, 0, RUNNELOPAL_BAD_KIND);
    record_fault(mark, RUNNELOPAL_SCRIPT_READ, 0, 0, 0, 0, RUNNELOPAL_BAD_FIELD);
    record_fault(mark, RUNNELOPAL_SCRIPT_READ, 3, 0, 0, 0, RUNNELOPAL_BAD_FIELD);
    record_fault(mark, RUNNELOPAL_SCRIPT_READ, 1, 0, 0, 1, RUNNELOPAL_BAD_FIELD);
    record_fault(mark, RUNNELOPAL_SCRIPT_READ, 1, 0, 1, 0, RUNNELOPAL_BAD_FIELD);
    record_fault(mark, RUNNELOPAL_SCRIPT_WRITE, 1, 0, 0, 0x100, RUNNELOPAL_BAD_FIELD);
    record_fault(mark, RUNNELOPAL_SCRIPT_WRITE, 2, 0, 0, 0x10000, RUNNELOPAL_BAD_FIELD);
    record_fault(mark, RUNNELOPAL_SCRIPT_DELAY, 0, 0, 0, 65536, RUNNELOPAL_BAD_FIELD);
    record_fault(mark, RUNNELOPAL_SCRIPT_REPEAT, 0, 1, 0, 1, RUNNELOPAL_BAD_FIELD);
    record_fault(mark, RUNNELOPAL_SCRIPT_IF, 1, 0, 0, 0x100, RUNNELOPAL_BAD_FIELD);
    record_fault(mark, RUNNELOPAL_SCRIPT_ELSE, 0, 0, 0, 1, RUNNELOPAL_BAD_FIELD); /* before its place */
    record_fault(mark, RUNNELOPAL_SCRIPT_ELSE, 0, 0, 0, 0, RUNNELOPAL_MISPLACED);
    record_fault(mark, RUNNELOPAL_SCRIPT_END, 0, 0, 0, 0, RUNNELOPAL_MISPLACED);
}

static void blocks(void)
{
    busy(&all); /* an else in a repeat */
    all.script.length = 0;
    record(&all.script, RUNNELOPAL_SCRIPT_REPEAT, 0, 0, 1);
    record(&all.script, RUNNELOPAL_SCRIPT_ELSE, 0, 0, 0);
    check_blocks(&all, RUNNELOPAL_MISPLACED, 1);

    busy(&all); /* a second else */
    all.script.length = 0;
    record(&all.script, RUNNELOPAL_SCRIPT_IF, 1, 0, 1);
    record(&all.script, RUNNELOPAL_SCRIPT_ELSE, 0, 0, 0);
    record(&all.script, RUNNELOPAL_SCRIPT_ELSE, 0, 0, 0);
    check_blocks(&all, RUNNELOPAL_MISPLACED, 2);

    busy(&all);
    all.script.length = 0;
    for (int k = 0; k < 17; k++)
        record(&all.script, RUNNELOPAL_SCRIPT_IF, 1, 0, 1);
    check_blocks(&all, RUNNELOPAL_TOO_DEEP, 16);

    busy(&all);
    all.script.length = 0;
    for (int k = 0; k < 9; k++)
        record(&all.script, RUNNELOPAL_SCRIPT_REPEAT, 0, 0, 1);
    check_blocks(&all, RUNNELOPAL_TOO_DEEP, 8);

    busy(&all);
    all.script.length = 0;
    read_record(&all.script, 1, 0);
    record(&all.script, RUNNELOPAL_SCRIPT_IF, 1, 0, 1);
    read_record(&all.script, 1, 0);
    check_blocks(&all, RUNNELOPAL_STILL_OPEN, 3);
}

static void words(void)
{
    busy(&all);
    all.script.length = 0;
    for (int k = 0; k < MOST; k++)
        write_record(&all.script, 1, 0x2E, 0x55);
    check_blocks(&all, RUNNELOPAL_TOO_MANY_WORDS, MOST);

    busy(&all);
    all.script.length = 0;
    read_record(&all.script, 1, 0x2E);
    for (size_t bytes = 0; bytes < 2 * RECORD; bytes++)
        check_refused_compile(&all, bytes, RUNNELOPAL_BUFFER_TOO_SHORT, 1);

    /* Exactly enough room, and more: the rest of the buffer stays as lent. */
    for (size_t bytes = 2 * RECORD; bytes <= 3 * RECORD; bytes++) {
        memset(all.image.bytes, 0xC6, sizeof all.image.bytes);
        runnelopal_compile_answer compiled = runnelopal_compile(all.script.bytes, all.script.length, all.image.bytes, bytes);
        CHECK(compiled.refusal == 0 && compiled.place == 0 && compiled.words == 2);
        records expected = {{0}, 0};
        word(&expected, RUNNELOPAL_WORD_READ, 1, 0x2E, 0, 0);
        word(&expected, RUNNELOPAL_WORD_HALT, 0, 0, 0, 0);
        CHECK(memcmp(all.image.bytes, expected.bytes, expected.length) == 0);
        CHECK(filled(all.image.bytes + expected.length, sizeof all.image.bytes - expected.length, 0xC6));
    }

    /* One word for each kind, with targets. */
    fresh(&all);
    record(&all.script, RUNNELOPAL_SCRIPT_REPEAT, 0, 0, 2);
    record(&all.script, RUNNELOPAL_SCRIPT_IF, 2, PM1A_STS, 1);
    write_record(&all.script, 2, PM1A_STS, 1);
    record(&all.script, RUNNELOPAL_SCRIPT_ELSE, 0, 0, 0);
    record(&all.script, RUNNELOPAL_SCRIPT_DELAY, 0, 0, 10);
    record(&all.script, RUNNELOPAL_SCRIPT_END, 0, 0, 0);
    record(&all.script, RUNNELOPAL_SCRIPT_END, 0, 0, 0);
    read_record(&all.script, 4, TIMER);
    records expected = {{0}, 0};
    word(&expected, RUNNELOPAL_WORD_ENTER, 0, 0, 6, 2);
    word(&expected, RUNNELOPAL_WORD_TEST, 2, PM1A_STS, 4, 1);
    word(&expected, RUNNELOPAL_WORD_WRITE, 2, PM1A_STS, 0, 1);
    word(&expected, RUNNELOPAL_WORD_JUMP, 0, 0, 5, 0);
    word(&expected, RUNNELOPAL_WORD_DELAY, 0, 0, 0, 10);
    word(&expected, RUNNELOPAL_WORD_LOOP_END, 0, 0, 1, 0);
    word(&expected, RUNNELOPAL_WORD_READ, 4, TIMER, 0, 0);
    word(&expected, RUNNELOPAL_WORD_HALT, 0, 0, 0, 0);
    runnelopal_compile_answer compiled = compile(&all);
    CHECK(compiled.refusal == 0 && compiled.words == 8 && memcmp(all.image.bytes, expected.bytes, expected.length) == 0);
}

static void bad_images(void)
{
    static const size_t lengths[] = {0, 11, 13, RECORD * MOST - 1, RECORD * MOST + 1, RECORD * MOST + RECORD};
    for (size_t k = 0; k < sizeof lengths / sizeof *lengths; k++) {
        busy(&all);
        all.image.length = lengths[k];
        check_refused_run(&all, RUNNELOPAL_BAD_IMAGE, 0);
        /* 10 comes before 11 and 12. */
        all.device[0] = 2;
        check_refused_run(&all, RUNNELOPAL_BAD_IMAGE, 0);
        all.sequencer_bytes = 0;
        all.events[0] = 0;
        check_refused_run(&all, RUNNELOPAL_BAD_IMAGE, 0);
    }
}

static void bad_devices(void)
{
    static const size_t lengths[] = {0, 1, DEVICE - 1, DEVICE + 1};
    for (size_t k = 0; k < sizeof lengths / sizeof *lengths; k++) {
        busy(&all);
        all.device_bytes = lengths[k];
        check_bad_device(&all);
        all.events[0] = 0; /* 11 comes before 12 */
        check_bad_device(&all);
        memcpy(&other, &all, sizeof other);
        CHECK(runnelopal_fresh_device(all.device, all.device_bytes) == RUNNELOPAL_BAD_STATE);
        CHECK(memcmp(&all, &other, sizeof all) == 0);
    }
    /* A byte of the device (docs/STATE.md), and a value that it cannot have. */
    static const uint8_t bad[][2] = {
        {0, 2},                                                                             /* flag: unlocked */
        {63, 2}, {63, 255}, {70, 2}, {98, 2}, {105, 2},                                     /* flags: SCI_EN, sleeping, pin levels */
        {3, 2}, {8, 8},                                                                     /* activate, key control */
        {42, 1}, {43, 0x45}, {44, 0x41}, {45, 0x01}, {47, 0x10}, {50, 4}, {51, 1}, {55, 1}, /* monitor: 40h to 88h */
        {56, 0x20}, {58, 0x04}, {59, 0x01}, {60, 0x10},                                     /* monitor: 90h to B7h */
        {61, 0x08}, {62, 1}, {65, 0x40}, {66, 2}, {68, 1}, {71, 0x42}, {72, 1},             /* P_CNT to SETUP_IDX */
        {77, 0x20}, {78, 0x02}, {92, 0x20}, {93, 16}, {97, 1},                              /* maps, IRQ, timer */
    };
    for (size_t k = 0; k < sizeof bad / sizeof *bad; k++) {
        busy(&all);
        all.device[bad[k][0]] = bad[k][1];
        check_bad_device(&all);
        all.events[0] = 0;
        check_bad_device(&all);
    }
}

static void bad_sequencers(void)
{
    static const size_t lengths[] = {0, 1, SEQUENCER - 1, SEQUENCER + 1};
    for (size_t k = 0; k < sizeof lengths / sizeof *lengths; k++) {
        busy(&all);
        all.sequencer_bytes = lengths[k];
        check_bad_sequencer(&all);
        all.events[0] = 0; /* 11 comes before 12 */
        check_bad_sequencer(&all);
        memcpy(&other, &all, sizeof other);
        CHECK(runnelopal_fresh_sequencer(all.sequencer, all.sequencer_bytes) == RUNNELOPAL_BAD_STATE);
        CHECK(memcmp(&all, &other, sizeof all) == 0);
    }
    static const uint32_t bad[][1 + RUNNELOPAL_COUNTERS] = {
        {9, 1, 1, 1, 1, 1, 1, 1, 1},      /* nine counters in use */
        {0x100, 0, 0, 0, 0, 0, 0, 0, 0},  /* each byte of the number counts */
        {1, 0, 0, 0, 0, 0, 0, 0, 0},      /* a counter in use is 0 */
        {8, 1, 1, 1, 1, 1, 1, 1, 0},
        {1, 65536, 0, 0, 0, 0, 0, 0, 0},  /* a counter in use is too large */
        {2, 1, 0x80000001, 0, 0, 0, 0, 0, 0},
        {0, 1, 0, 0, 0, 0, 0, 0, 0},      /* a counter that is not in use is not 0 */
        {7, 1, 1, 1, 1, 1, 1, 1, 1},
        {2, 1, 1, 0, 0, 0, 0, 0, 0x1000000},
    };
    for (size_t k = 0; k < sizeof bad / sizeof *bad; k++) {
        busy(&all);
        set_sequencer(&all, 0, bad[k][0], bad[k] + 1);
        check_bad_sequencer(&all);
        all.events[0] = 0;
        check_bad_sequencer(&all);
    }
}

static void bad_events(void)
{
    static const uint32_t bad[] = {0, 0x00000001, 0x01010000, 0x02000010, 0x03000001, 0x04000001, 0x05000004, 0x06000004, 0x07000001,
                                   0x08000000, 0xFF000000, UINT32_MAX, RUNNELOPAL_EVENT(256, 0), RUNNELOPAL_EVENT(1, 0x5000001)};
    for (size_t k = 0; k < sizeof bad / sizeof *bad; k++)
        for (uint32_t place = 0; place < 3; place++) {
            busy(&all);
            for (size_t event = 0; event < 4; event++)
                all.events[event] = NO_TICKS;
            all.events[place] = all.events[3] = bad[k]; /* the first one counts, also if the run would never take it */
            all.event_count = 4;
            all.budget = place == 1 ? 0 : 4;
            check_refused_run(&all, RUNNELOPAL_BAD_EVENT, place);
            check_refused_interpretation(&all, RUNNELOPAL_BAD_EVENT, place);
            memcpy(&other, &all, sizeof other);
            runnelopal_outputs_answer event = runnelopal_event(all.device, all.device_bytes, bad[k]);
            CHECK(event.refusal == RUNNELOPAL_BAD_EVENT && event.place == 0 && off(event.outputs));
            CHECK(memcmp(&all, &other, sizeof all) == 0);
        }

    busy(&all);
    for (size_t k = 0; k < 4098; k++)
        all.events[k] = NO_TICKS;
    all.events[5] = 0; /* too many events come before a bad one */
    all.event_count = 4097;
    check_refused_run(&all, RUNNELOPAL_BAD_EVENT, 4096);
    check_refused_interpretation(&all, RUNNELOPAL_BAD_EVENT, 4096);
    all.events[5] = NO_TICKS;
    check_refused_run(&all, RUNNELOPAL_BAD_EVENT, 4096);
    all.event_count = 4096;
    CHECK(run(&all).taken == 2);
}

static void bad_accesses(void)
{
    static const uint32_t bad[][4] = {{0, 0, 0x2E, 0}, {0, 3, 0x2E, 0}, {0, 5, 0x2E, 0}, {0, UINT32_MAX, 0x2E, 0}, {0, 1, 0x10000, 0},
                                      {1, 1, UINT32_MAX, 0}, {1, 1, 0x2E, 0x100}, {1, 2, PM1A_EN, 0x10000}, {1, 3, 0x2E, 0}};
    busy(&all);
    memcpy(&other, &all, sizeof other);
    for (size_t k = 0; k < sizeof bad / sizeof *bad; k++) {
        runnelopal_access_answer answer = runnelopal_access(all.device, DEVICE, bad[k][0] != 0, bad[k][1], bad[k][2], bad[k][3]);
        CHECK(answer.refusal == RUNNELOPAL_BAD_FIELD && answer.place == 0 && answer.status == 0 && answer.value == 0 && answer.owner == 0);
        CHECK(off(answer.outputs) && memcmp(&all, &other, sizeof all) == 0);
    }
    /* A read does not use the value. */
    CHECK(runnelopal_access(all.device, DEVICE, false, 1, 0x2E, UINT32_MAX).refusal == 0);
}

static void valid_bytes(void)
{
    fresh(&all);
    CHECK(runnelopal_valid_device(all.device, DEVICE) && runnelopal_valid_sequencer(all.sequencer, SEQUENCER));
    CHECK(runnelopal_fresh_device(all.device, DEVICE) == 0 && runnelopal_fresh_sequencer(all.sequencer, SEQUENCER) == 0);
    CHECK(all.device[DEVICE] == 0xD5 && all.sequencer[SEQUENCER] == 0x59);
    CHECK(filled(all.sequencer, SEQUENCER, 0));

    /* Reset 3 gives the fresh device. */
    busy(&other);
    CHECK(runnelopal_valid_device(other.device, DEVICE) && memcmp(all.device, other.device, DEVICE) != 0);
    runnelopal_outputs_answer reset = runnelopal_event(other.device, DEVICE, RUNNELOPAL_EVENT(RUNNELOPAL_EVENT_RESET, RUNNELOPAL_RESET_VBAT));
    CHECK(reset.refusal == 0 && off(reset.outputs) && memcmp(all.device, other.device, sizeof all.device) == 0);

    static const uint32_t counters[RUNNELOPAL_COUNTERS] = {1, 65535, 3, 4, 5, 6, 7, 256};
    static const uint32_t none[RUNNELOPAL_COUNTERS] = {0};
    set_sequencer(&all, UINT32_MAX, 8, counters);
    runnelopal_sequencer_answer answer = runnelopal_sequencer(all.sequencer, SEQUENCER);
    CHECK(runnelopal_valid_sequencer(all.sequencer, SEQUENCER));
    CHECK(answer.refusal == 0 && answer.place == UINT32_MAX && answer.used == 8 && memcmp(answer.counters, counters, sizeof counters) == 0);
    set_sequencer(&all, 0x01020304, 0, none);
    answer = runnelopal_sequencer(all.sequencer, SEQUENCER);
    CHECK(answer.refusal == 0 && answer.place == 0x01020304 && answer.used == 0 && memcmp(answer.counters, none, sizeof none) == 0);
}

/* ---- Endings. Each run has an event for each access, so that a word at fault could take one. */

static void check_ending(uint32_t outcome, uint32_t steps, size_t taken, size_t logged, uint32_t place)
{
    static lent before;
    memcpy(&before, &all, sizeof before);
    runnelopal_run_answer answer = run(&all);
    runnelopal_sequencer_answer after = runnelopal_sequencer(all.sequencer, SEQUENCER);
    CHECK(answer.outcome == outcome && answer.place == 0 && !runnelopal_is_refusal(outcome));
    CHECK(answer.steps == steps && answer.taken == taken && answer.logged == logged);
    CHECK(after.refusal == 0 && after.place == place);
    CHECK(memcmp(all.log + logged, before.log + logged, sizeof all.log - logged * sizeof *all.log) == 0);
    CHECK(memcmp(all.device + DEVICE, before.device + DEVICE, 8) == 0 && memcmp(all.sequencer + SEQUENCER, before.sequencer + SEQUENCER, 8) == 0);
    if (steps == 0)
        CHECK(memcmp(all.device, before.device, DEVICE) == 0 && memcmp(all.sequencer, before.sequencer, SEQUENCER) == 0);
    CHECK(runnelopal_valid_device(all.device, DEVICE));
    runnelopal_outputs_answer outputs = runnelopal_outputs(all.device, DEVICE);
    CHECK(levels(outputs.outputs, answer.outputs.sci, answer.outputs.smi, answer.outputs.monitor));
}

/* A fresh run of one read and then this word. */
static void ends_at(uint32_t mark, uint32_t kind, uint32_t width, uint32_t port, uint32_t target, uint32_t value, uint32_t outcome)
{
    fresh(&all);
    word(&all.image, RUNNELOPAL_WORD_READ, 1, 0x2E, 0, 0);
    put(&all.image, mark, kind, width, port, target, value);
    all.events[0] = all.events[1] = ALARM;
    all.event_count = 2;
    check_ending(outcome, 1, 1, 1, 1);
    /* A resumed run is at the same word, and does nothing. */
    all.events[0] = ALARM;
    check_ending(outcome, 0, 0, 0, 1);
}

static void endings(void)
{
    const uint32_t mark = RUNNELOPAL_WORD_MARK;
    ends_at(RUNNELOPAL_SCRIPT_MARK, RUNNELOPAL_WORD_READ, 1, 0, 0, 0, RUNNELOPAL_BAD_WORD);
    ends_at(mark, 0, 0, 0, 0, 0, RUNNELOPAL_BAD_WORD);
    ends_at(mark, 9, 0, 0, 0, 0, RUNNELOPAL_BAD_WORD);
    ends_at(mark, RUNNELOPAL_WORD_READ, 3, 0, 0, 0, RUNNELOPAL_BAD_WORD);
    ends_at(mark, RUNNELOPAL_WORD_WRITE, 1, 0, 0, 0x100, RUNNELOPAL_BAD_WORD);
    ends_at(mark, RUNNELOPAL_WORD_HALT, 0, 0, 1, 0, RUNNELOPAL_BAD_WORD);
    ends_at(mark, RUNNELOPAL_WORD_JUMP, 0, 0, 2, 0, RUNNELOPAL_BEYOND_LAST_WORD);
    ends_at(mark, RUNNELOPAL_WORD_TEST, 1, 0x2E, 2, 0xFF, RUNNELOPAL_BEYOND_LAST_WORD); /* also if it would not jump */
    ends_at(mark, RUNNELOPAL_WORD_LOOP_END, 0, 0, 0, 0, RUNNELOPAL_NO_COUNTER);

    fresh(&all); /* the place goes beyond the last word; the budget is checked first */
    word(&all.image, RUNNELOPAL_WORD_READ, 1, 0x2E, 0, 0);
    all.budget = 1;
    check_ending(RUNNELOPAL_BUDGET_SPENT, 1, 0, 1, 1);
    check_ending(RUNNELOPAL_BEYOND_LAST_WORD, 0, 0, 0, 1);
    static const uint32_t counters[RUNNELOPAL_COUNTERS] = {1, 2};
    set_sequencer(&all, UINT32_MAX, 2, counters);
    check_ending(RUNNELOPAL_BEYOND_LAST_WORD, 0, 0, 0, UINT32_MAX);

    fresh(&all);
    for (uint32_t k = 0; k < 9; k++)
        word(&all.image, RUNNELOPAL_WORD_ENTER, 0, 0, 0, k + 1);
    check_ending(RUNNELOPAL_NINTH_COUNTER, 8, 0, 0, 8);
    runnelopal_sequencer_answer open = runnelopal_sequencer(all.sequencer, SEQUENCER);
    CHECK(open.used == 8);
    for (uint32_t k = 0; k < 8; k++)
        CHECK(open.counters[k] == k + 1);

    fresh(&all); /* the third read finds the log full; the entries after the log stay */
    read_record(&all.script, 1, 0x2E);
    read_record(&all.script, 4, TIMER);
    read_record(&all.script, 1, 0x1234);
    compile(&all);
    all.log_count = 2;
    for (size_t k = 0; k < 4; k++)
        all.events[k] = NO_TICKS;
    all.event_count = 4;
    check_ending(RUNNELOPAL_LOG_FULL, 2, 2, 2, 2);
    CHECK(all.log[0] == 0x1000000FF && all.log[1] == 0x200000000);
    all.log_count = 0;
    check_ending(RUNNELOPAL_LOG_FULL, 0, 0, 0, 2);
    all.log_count = 1;
    check_ending(RUNNELOPAL_HALTED, 2, 1, 1, 3);
    CHECK(all.log[0] == 0x0000000FF && all.log[1] == 0x200000000);
    check_ending(RUNNELOPAL_HALTED, 1, 0, 0, 3); /* halts again */

    fresh(&all); /* budget 0 */
    compile(&all);
    all.budget = 0;
    check_ending(RUNNELOPAL_BUDGET_SPENT, 0, 0, 0, 0);
    all.budget = UINT32_MAX;
    check_ending(RUNNELOPAL_HALTED, 1, 0, 0, 0);
}

/* ---- Events and outputs. The script runs as an image and is interpreted, with the same result. */

static runnelopal_run_answer both(lent *call)
{
    static struct lent_copy { uint8_t device[DEVICE + 8]; uint64_t log[16]; } before, interpreted;
    memcpy(before.device, call->device, sizeof before.device);
    memcpy(before.log, call->log, sizeof before.log);
    runnelopal_run_answer answer = interpret(call);
    memcpy(interpreted.device, call->device, sizeof before.device);
    memcpy(interpreted.log, call->log, sizeof before.log);
    memcpy(call->device, before.device, sizeof before.device);
    memcpy(call->log, before.log, sizeof before.log);
    CHECK(compile(call).refusal == 0);
    runnelopal_fresh_sequencer(call->sequencer, SEQUENCER);
    runnelopal_run_answer answered = run(call);
    CHECK(same_answer(answer, answered));
    CHECK(memcmp(interpreted.device, call->device, sizeof before.device) == 0 && memcmp(interpreted.log, call->log, sizeof before.log) == 0);
    runnelopal_outputs_answer outputs = runnelopal_outputs(call->device, DEVICE);
    CHECK(outputs.refusal == 0 && levels(outputs.outputs, answered.outputs.sci, answered.outputs.smi, answered.outputs.monitor));
    call->script.length = 0;
    call->event_count = 0;
    return answered;
}

static void power_events(void)
{
    fresh(&all);
    write_record(&all.script, 2, PM1A_EN, RTC_STS);
    record(&all.script, RUNNELOPAL_SCRIPT_DELAY, 0, 0, 3); /* takes no event of the list */
    read_record(&all.script, 2, PM1A_STS);
    all.events[0] = RUNNELOPAL_EVENT(RUNNELOPAL_EVENT_TICKS, 5);
    all.events[1] = ALARM;
    all.events[2] = ALARM; /* left over */
    all.event_count = 3;
    runnelopal_run_answer answer = both(&all);
    CHECK(answer.outcome == RUNNELOPAL_HALTED && answer.steps == 4 && answer.taken == 2 && answer.logged == 1);
    CHECK(all.log[0] == ((uint64_t)RUNNELOPAL_OWNER_ACPI << 32 | RTC_STS) && all.log[1] == 0xEEEEEEEEEEEEEEEE);
    CHECK(levels(answer.outputs, false, true, false));

    write_record(&all.script, 1, SMI_CMD, 1); /* the next runs start from the device of the last one */
    read_record(&all.script, 4, TIMER);
    answer = both(&all);
    CHECK(levels(answer.outputs, true, false, false) && all.log[0] == 0x200000008);
    write_record(&all.script, 2, PM1A_STS, RTC_STS);
    CHECK(levels(both(&all).outputs, false, false, false));
    write_record(&all.script, 1, SMI_CMD, 2);
    all.events[0] = ALARM;
    all.event_count = 1;
    CHECK(levels(both(&all).outputs, false, true, false));
}

static void monitor_events(void)
{
    fresh(&all);
    enable_monitor(&all.script);
    CHECK(levels(both(&all).outputs, false, false, false));
    write_record(&all.script, 1, MONITOR, 0x83);
    read_record(&all.script, 1, MONITOR + 1);
    all.events[0] = NO_TICKS;
    all.events[1] = RUNNELOPAL_EVENT(RUNNELOPAL_EVENT_SENSOR, RUNNELOPAL_SENSOR_VBAT);
    all.event_count = 2;
    runnelopal_run_answer answer = both(&all);
    CHECK(levels(answer.outputs, false, false, true) && answer.taken == 2);
    CHECK(all.log[0] == ((uint64_t)RUNNELOPAL_OWNER_MONITOR << 32 | RUNNELOPAL_SENSOR_VBAT));
    write_record(&all.script, 1, MONITOR + 1, RUNNELOPAL_SENSOR_VBAT);
    CHECK(levels(both(&all).outputs, false, false, false));
}

static void pin_events(void)
{
    fresh(&all); /* pin 2 sets GPE0_STS bit 2 when it rises */
    write_record(&all.script, 2, SETUP_IDX, 0x12);
    write_record(&all.script, 4, SETUP_DATA, 0x12);
    write_record(&all.script, 2, GPE0_EN, 0x04);
    CHECK(both(&all).steps == 4);
    for (int k = 0; k < 3; k++)
        read_record(&all.script, 2, GPE0_STS);
    all.events[0] = RUNNELOPAL_EVENT(RUNNELOPAL_EVENT_PIN, 2);
    all.events[1] = RUNNELOPAL_EVENT(RUNNELOPAL_EVENT_PIN, 3 | RUNNELOPAL_PIN_HIGH);
    all.events[2] = RUNNELOPAL_EVENT(RUNNELOPAL_EVENT_PIN, 2 | RUNNELOPAL_PIN_HIGH);
    all.event_count = 3;
    runnelopal_run_answer answer = both(&all);
    CHECK(all.log[0] == 0x200000000 && all.log[1] == 0x200000000 && all.log[2] == 0x200000004 && levels(answer.outputs, false, true, false));
}

/* docs/CASES.md: a reset in the middle of a script. */
static void reset_in_the_middle(void)
{
    for (int with = 0; with < 2; with++) {
        fresh(&all);
        write_record(&all.script, 1, CONFIGURATION, 0x55);
        indexed_write(&all.script, CONFIGURATION, 0x07, 0x0A);
        write_record(&all.script, 1, CONFIGURATION, 0xF2);
        read_record(&all.script, 1, CONFIGURATION + 1);
        write_record(&all.script, 1, CONFIGURATION, 0xAA);
        read_record(&all.script, 1, CONFIGURATION + 1);
        for (size_t k = 0; k < 4; k++)
            all.events[k] = NO_TICKS;
        all.events[4] = RUNNELOPAL_EVENT(RUNNELOPAL_EVENT_RESET, RUNNELOPAL_RESET_VCC);
        all.event_count = with ? 5 : 0;
        runnelopal_run_answer answer = both(&all);
        CHECK(answer.outcome == RUNNELOPAL_HALTED && answer.steps == 8 && answer.taken == (with ? 5u : 0u) && answer.logged == 2);
        CHECK(all.log[0] == (with ? 0x1000000FFu : 0x100000004u) && all.log[1] == 0x1000000FF && all.log[2] == 0xEEEEEEEEEEEEEEEE);
    }
}

static void single_calls(void)
{
    fresh(&all);
    uint8_t *device = all.device;
    runnelopal_access_answer read = runnelopal_access(device, DEVICE, false, 1, 0x2F, 0);
    CHECK(read.refusal == 0 && read.status == RUNNELOPAL_STATUS_UNCLAIMED && read.value == 0xFF && read.owner == RUNNELOPAL_OWNER_CONFIGURATION);
    read = runnelopal_access(device, DEVICE, false, 4, 0x1234, 0);
    CHECK(read.status == RUNNELOPAL_STATUS_UNCLAIMED && read.value == UINT32_MAX && read.owner == RUNNELOPAL_OWNER_NOBODY);
    read = runnelopal_access(device, DEVICE, true, 4, TIMER, 0);
    CHECK(read.status == RUNNELOPAL_STATUS_BLOCKED && read.value == 0 && read.owner == RUNNELOPAL_OWNER_ACPI);
    CHECK(runnelopal_access(device, DEVICE, true, 2, SETUP_IDX, 0x42).status == RUNNELOPAL_STATUS_IGNORED);
    CHECK(runnelopal_access(device, DEVICE, true, 1, 0x2E, 0x55).status == RUNNELOPAL_STATUS_DONE);
    CHECK(runnelopal_access(device, DEVICE, false, 1, 0x2F, 0).status == RUNNELOPAL_STATUS_ABSENT);
    CHECK(runnelopal_access(device, DEVICE, true, 1, 0x2E, 0x55).refusal == 0);
    CHECK(runnelopal_access(device, DEVICE, false, 1, 0x2E, 0).value == 0x55);

    runnelopal_outputs_answer on = runnelopal_event(device, DEVICE, ALARM);
    CHECK(on.refusal == 0 && on.place == 0 && off(on.outputs));
    read = runnelopal_access(device, DEVICE, true, 2, PM1A_EN, RTC_STS);
    CHECK(read.status == RUNNELOPAL_STATUS_DONE && read.value == 0 && levels(read.outputs, false, true, false));
    read = runnelopal_access(device, DEVICE, true, 1, SMI_CMD, 1);
    CHECK(levels(read.outputs, true, false, false));
    on = runnelopal_outputs(device, DEVICE);
    CHECK(on.refusal == 0 && on.place == 0 && levels(on.outputs, true, false, false));
    on = runnelopal_event(device, DEVICE, RUNNELOPAL_EVENT(RUNNELOPAL_EVENT_BUTTON, 0));
    CHECK(levels(on.outputs, true, false, false));
    on = runnelopal_event(device, DEVICE, RUNNELOPAL_EVENT(RUNNELOPAL_EVENT_BUS_MASTER, 0));
    CHECK(levels(on.outputs, true, false, false));
    CHECK(runnelopal_access(device, DEVICE, false, 2, PM1A_STS, 0).value == 0x0C10);
    on = runnelopal_event(device, DEVICE, RUNNELOPAL_EVENT(RUNNELOPAL_EVENT_RESET, RUNNELOPAL_RESET_VTR));
    CHECK(off(on.outputs) && off(runnelopal_outputs(device, DEVICE).outputs));
    CHECK(device[DEVICE] == 0xD5);
}

/* A script with every kind of record, and an event for some of its accesses. */
static void put_mixed_script(lent *call)
{
    fresh(call);
    write_record(&call->script, 2, PM1A_EN, RTC_STS);
    record(&call->script, RUNNELOPAL_SCRIPT_REPEAT, 0, 0, 2);
    record(&call->script, RUNNELOPAL_SCRIPT_REPEAT, 0, 0, 2);
    record(&call->script, RUNNELOPAL_SCRIPT_DELAY, 0, 0, 9);
    record(&call->script, RUNNELOPAL_SCRIPT_IF, 2, PM1A_STS, RTC_STS);
    write_record(&call->script, 2, PM1A_STS, RTC_STS);
    record(&call->script, RUNNELOPAL_SCRIPT_ELSE, 0, 0, 0);
    read_record(&call->script, 4, TIMER);
    record(&call->script, RUNNELOPAL_SCRIPT_END, 0, 0, 0);
    record(&call->script, RUNNELOPAL_SCRIPT_END, 0, 0, 0);
    record(&call->script, RUNNELOPAL_SCRIPT_END, 0, 0, 0);
    read_record(&call->script, 2, PM1A_STS);
    call->events[0] = NO_TICKS;
    call->events[1] = ALARM;
    call->events[2] = RUNNELOPAL_EVENT(RUNNELOPAL_EVENT_TICKS, 100);
    call->events[3] = NO_TICKS;
    call->events[4] = ALARM;
    call->event_count = 5;
    CHECK(compile(call).refusal == 0);
}

/* A budget of a and then of b gives the same as one of a + b, if the first run ended with 19. */
static void parts(void)
{
    put_mixed_script(&all);
    const uint32_t steps = run(&all).steps;
    CHECK(steps > 20);
    for (uint32_t room = 0; room <= 4; room++)
        for (uint32_t a = 0; a <= steps; a++)
            for (uint32_t b = 0; a + b <= steps + 1; b++) {
                put_mixed_script(&all);
                all.log_count = room;
                all.budget = a + b;
                runnelopal_run_answer whole = run(&all);

                put_mixed_script(&other);
                runnelopal_run_answer first = runnelopal_run(other.image.bytes, other.image.length, other.device, DEVICE, other.sequencer,
                                                             SEQUENCER, other.events, other.event_count, a, other.log, room);
                if (first.outcome != RUNNELOPAL_BUDGET_SPENT)
                    continue;
                CHECK(runnelopal_valid_device(other.device, DEVICE) && runnelopal_valid_sequencer(other.sequencer, SEQUENCER));
                runnelopal_run_answer sum = runnelopal_run(other.image.bytes, other.image.length, other.device, DEVICE, other.sequencer,
                                                           SEQUENCER, other.events + first.taken, other.event_count - first.taken, b,
                                                           other.log + first.logged, room - first.logged);
                sum.steps += first.steps;
                sum.taken += first.taken;
                sum.logged += first.logged;
                CHECK(same_answer(sum, whole));
                CHECK(memcmp(all.device, other.device, sizeof all.device) == 0 && memcmp(all.log, other.log, sizeof all.log) == 0);
                CHECK(memcmp(all.sequencer, other.sequencer, sizeof all.sequencer) == 0);
            }
}

/* The first time that two loops are open, after three words. */
static void counters(void)
{
    put_mixed_script(&all);
    all.budget = 3;
    CHECK(run(&all).outcome == RUNNELOPAL_BUDGET_SPENT);
    runnelopal_sequencer_answer open = runnelopal_sequencer(all.sequencer, SEQUENCER);
    CHECK(open.refusal == 0 && open.place == 3 && open.used == 2 && open.counters[0] == 2 && open.counters[1] == 2 && open.counters[2] == 0);
}

/* A text of one line, as it is, with LF, with CR and with both. */
static void check_line(const char *line, const records *expected)
{
    static const char *const ends[] = {"", "\n", "\r", "\r\n", "\n\n", "\n \t\r\n;"};
    for (size_t k = 0; k < sizeof ends / sizeof *ends; k++) {
        set_text(line);
        put_text(ends[k]);
        check_assembled(expected->bytes, expected->length);
    }
}

static void statement(const char *line, uint32_t kind, uint32_t width, uint32_t port, uint32_t value)
{
    static const char *const around[][2] = {{"", ""}, {" ", "\t"}, {"\t  \t", ";"}, {"", "   ; \xC3\xBC \r ; write"}};
    records expected = {{0}, 0};
    record(&expected, kind, width, port, value);
    for (size_t k = 0; k < sizeof around / sizeof *around; k++) {
        char whole[RUNNELOPAL_LINE_BYTES];
        snprintf(whole, sizeof whole, "%s%s%s", around[k][0], line, around[k][1]);
        check_line(whole, &expected);
    }
}

static void statements(void)
{
    statement("write 1 2Eh 55h", RUNNELOPAL_SCRIPT_WRITE, 1, 0x2E, 0x55);
    statement("write 01h 46 085", RUNNELOPAL_SCRIPT_WRITE, 1, 0x2E, 0x55);
    statement("write \t 2   AC08h\t\tFFFFh", RUNNELOPAL_SCRIPT_WRITE, 2, 0xAC08, 0xFFFF);
    statement("write 4 65535 4294967295", RUNNELOPAL_SCRIPT_WRITE, 4, 0xFFFF, 0xFFFFFFFF);
    statement("write 4 0ffffH 0aBcDeF1h", RUNNELOPAL_SCRIPT_WRITE, 4, 0xFFFF, 0x0ABCDEF1);
    statement("read 1 2fh", RUNNELOPAL_SCRIPT_READ, 1, 0x2F, 0);
    statement("read 2 0", RUNNELOPAL_SCRIPT_READ, 2, 0, 0);
    statement("read 4 AC18H", RUNNELOPAL_SCRIPT_READ, 4, 0xAC18, 0);
    statement("delay 0", RUNNELOPAL_SCRIPT_DELAY, 0, 0, 0);
    statement("delay 65535", RUNNELOPAL_SCRIPT_DELAY, 0, 0, 65535);
    statement("delay 10h", RUNNELOPAL_SCRIPT_DELAY, 0, 0, 16);
    statement("repeat 000000000000000000003", RUNNELOPAL_SCRIPT_REPEAT, 0, 0, 3);
    statement("repeat ffffh", RUNNELOPAL_SCRIPT_REPEAT, 0, 0, 65535);
    statement("if 1 AC08h 255", RUNNELOPAL_SCRIPT_IF, 1, 0xAC08, 255);
    statement("if 2 44040 1", RUNNELOPAL_SCRIPT_IF, 2, 0xAC08, 1);
    statement("if 4 0h 80000000h", RUNNELOPAL_SCRIPT_IF, 4, 0, 0x80000000);
    statement("else", RUNNELOPAL_SCRIPT_ELSE, 0, 0, 0);
    statement("end", RUNNELOPAL_SCRIPT_END, 0, 0, 0);

    /* The text of docs/TEXT.md. Blocks are not checked: a lone end is read too. */
    set_text("; Unlocks the configuration, and reads key control.\n"
             "write 1 2Eh 55h         ; the key that unlocks\n"
             "write 1 2Eh F2h         ; the index of key control\n"
             "read  1 2Fh\n"
             "repeat 3\n"
             "    delay 1000\n"
             "    if 2 AC08h 0001h    ; has the timer's bit 23 changed?\n"
             "        write 2 AC08h 0001h\n"
             "    else\n"
             "        read 4 AC18h\n"
             "    end\n"
             "end\n"
             "end");
    records expected = {{0}, 0};
    write_record(&expected, 1, CONFIGURATION, 0x55);
    write_record(&expected, 1, CONFIGURATION, 0xF2);
    read_record(&expected, 1, CONFIGURATION + 1);
    record(&expected, RUNNELOPAL_SCRIPT_REPEAT, 0, 0, 3);
    record(&expected, RUNNELOPAL_SCRIPT_DELAY, 0, 0, 1000);
    record(&expected, RUNNELOPAL_SCRIPT_IF, 2, PM1A_STS, 1);
    write_record(&expected, 2, PM1A_STS, 1);
    record(&expected, RUNNELOPAL_SCRIPT_ELSE, 0, 0, 0);
    read_record(&expected, 4, TIMER);
    for (int k = 0; k < 3; k++)
        record(&expected, RUNNELOPAL_SCRIPT_END, 0, 0, 0);
    check_assembled(expected.bytes, expected.length);
}

static void lines(void)
{
    const records none = {{0}, 0};
    static const char *const empty[] = {"", " ", "\t \t", ";", "; write 1", "  ;;\r", "\n\n\n", "\r\n\r\n", " \r\n;\xFF\xFE"};
    for (size_t k = 0; k < sizeof empty / sizeof *empty; k++)
        check_line(empty[k], &none);
    set_text("");
    put_bytes(";\0 ", 3); /* any byte may be in a comment */
    check_assembled(none.bytes, 0);

    records two = {{0}, 0};
    record(&two, RUNNELOPAL_SCRIPT_END, 0, 0, 0);
    read_record(&two, 1, 0x2E);
    check_line("end\nread 1 2Eh", &two);
    check_line("end\r\nread 1 2Eh", &two);
    check_line(";\r\n\n  end \r\n;\n\tread\t1\t2Eh;", &two);
}

/* A line that is refused, on each of five lines of a text, with and without a line feed at its end. The lines after it are bad too, in every
 * way. */
static void bad_line(const char *line, size_t length, uint32_t number)
{
    for (size_t place = 0; place < 5; place++)
        for (int rest = 0; rest < 4; rest++) {
            set_text("");
            for (size_t k = 0; k < place; k++)
                put_text(k == 2 ? "; a comment\r\n" : "read 1 2Eh\n");
            put_bytes(line, length);
            if (rest >= 1)
                put_text("\n");
            if (rest == 2)
                put_text("read 1 2Eh\nread 3 2Eh\nwrong\n");
            if (rest == 3)
                put_times(RUNNELOPAL_LINE_BYTES + 1, ' ');
            check_refused_text(number, place);
        }
}

static void not_in_grammar(void)
{
    static const char *const bad[] = {
        "Write 1 2Eh 55h", "WRITE 1 2Eh 55h", "writ 1 2Eh 55h", "writes 1 2Eh 55h", "x", "1", "55h", ",", "=",
        "\xEF\xBB\xBF" "end", "\xC2\xA0" "end", /* a byte order mark, a space of another kind */
        "write", "write 1", "write 1 2Eh", "write 1 2Eh 55h 0", "write1 2Eh 55h", "write 1 2Eh55h 1 1", "write 1, 2Eh, 55h",
        "read", "read 1", "read 1 2Eh 0", "read 1 2E", "read 1 $2E", "read 1 0x2E", "read 1 2Ehh", "read 1 h", "read 1 H", "read 1 2Eh2",
        "read 1 2Gh",
        "delay", "delay 1 2", "delay -1", "delay +1", "delay 1,000", "delay 1.0", "delay A", "delay 1 000", "delay end",
        "repeat", "repeat x", "repeat 3 4", "3 repeat", "if", "if 1", "if 1 2Eh", "if 1 2Eh 1 1", "16 x if 1 2Eh 1",
        "else 1", "elseif", "end 1", "end end", "else end", "ends", "en", "e nd",
        "\rend", "end\r ", "end\r\r", "end\rend", "en\rd", "end\v", "end\f", "end\x7F", "end\x1F", "end\x80", "end :", "end #",
        /* 31 comes before 32. */
        "write 9 99999h", "write 3 2Eh 100h 0", "delay 65536 x", "read 3 65536 0", "99999999999999999999",
    };
    for (size_t k = 0; k < sizeof bad / sizeof *bad; k++)
        bad_line(bad[k], strlen(bad[k]), RUNNELOPAL_NOT_IN_GRAMMAR);
    bad_line("end\0", 4, RUNNELOPAL_NOT_IN_GRAMMAR);
    bad_line("\0", 1, RUNNELOPAL_NOT_IN_GRAMMAR);
}

static void numbers_too_big(void)
{
    static const char *const bad[] = {
        "write 1 2Eh 100h", "write 1 2Eh 256", "write 2 2Eh 10000h", "write 2 2Eh 65536", "write 4 2Eh 100000000h", "write 4 2Eh 4294967296",
        "write 0 2Eh 0", "write 3 2Eh 0", "write 5 2Eh 0", "write 8 2Eh 0", "write 257 2Eh 0", "write 100000001h 2Eh 0", "write 1 10000h 0",
        "write 1 10000002Eh 0", "write 1 2Eh 18446744073709551616", "write 1 2Eh 10000000000000055h", "write 10000000000000001h 2Eh 0",
        "read 0 2Eh", "read 3 2Eh", "read 16 2Eh", "read 1 65536", "read 1 FFFFFh", "read 1 1000000000000002Eh", "read 99999999999999999999 2Eh",
        "delay 65536", "delay 10000h", "delay 4294967296", "delay 18446744073709551616", "delay 18446744073709551617; 1 too",
        "repeat 65536", "repeat 0010000h", "repeat 100000003h",
        "if 1 2Eh 100h", "if 2 2Eh 10000h", "if 4 2Eh 100000000h", "if 3 2Eh 0", "if 1 65536 0",
    };
    for (size_t k = 0; k < sizeof bad / sizeof *bad; k++)
        bad_line(bad[k], strlen(bad[k]), RUNNELOPAL_NUMBER_TOO_BIG);

    /* A number of a hundred digits: too big, or with leading zeros. */
    records delay = {{0}, 0}, write = {{0}, 0};
    record(&delay, RUNNELOPAL_SCRIPT_DELAY, 0, 0, 7);
    write_record(&write, 1, 7, 9);
    for (int first = 0; first <= 9; first++)
        for (int hex = 0; hex <= 1; hex++) {
            char digits[101] = {0}, count[RUNNELOPAL_LINE_BYTES], port[RUNNELOPAL_LINE_BYTES];
            memset(digits, first == 0 ? '0' : '7', 100);
            digits[0] = (char)('0' + first);
            digits[99] = '7';
            snprintf(count, sizeof count, "delay %s%s", digits, hex ? "h" : "");
            snprintf(port, sizeof port, "write 1 %s%s 9", digits, hex ? "h" : "");
            if (first == 0) {
                check_line(count, &delay);
                check_line(port, &write);
            } else {
                bad_line(count, strlen(count), RUNNELOPAL_NUMBER_TOO_BIG);
                bad_line(port, strlen(port), RUNNELOPAL_NUMBER_TOO_BIG);
            }
        }
}

/* 120 bytes before the line feed are allowed. 30 comes before 31 and before 32. */
static void long_lines(void)
{
    static const struct {
        const char *start;
        char fill;
        const char *end;
        uint32_t number; /* at 120 bytes */
    } parts[] = {
        {"end", ' ', "", 0},
        {"", ' ', "end", 0},
        {"", '\t', "end\r", 0},
        {"end;", 'x', "", 0},
        {"end;", 'x', "\r", 0},
        {"end ", ' ', "\r", 0},
        {"wrong;", 'x', "", RUNNELOPAL_NOT_IN_GRAMMAR},
        {"end ", ' ', "x\r", RUNNELOPAL_NOT_IN_GRAMMAR},
        {"", 'e', "", RUNNELOPAL_NOT_IN_GRAMMAR},
        {"delay ", '9', "", RUNNELOPAL_NUMBER_TOO_BIG},
        {"read 3 2Eh ;", ';', "", RUNNELOPAL_NUMBER_TOO_BIG},
    };
    records expected = {{0}, 0};
    record(&expected, RUNNELOPAL_SCRIPT_END, 0, 0, 0);
    for (size_t k = 0; k < sizeof parts / sizeof *parts; k++)
        for (size_t more = 0; more <= 2; more++) {
            char line[RUNNELOPAL_LINE_BYTES + 2];
            const size_t length = RUNNELOPAL_LINE_BYTES + more, start = strlen(parts[k].start), end = strlen(parts[k].end);
            memset(line, parts[k].fill, length);
            memcpy(line, parts[k].start, start);
            memcpy(line + length - end, parts[k].end, end);
            uint32_t number = more == 0 ? parts[k].number : RUNNELOPAL_LINE_TOO_LONG;
            if (number != 0) {
                bad_line(line, length, number);
                continue;
            }
            for (int with = 0; with <= 1; with++) {
                set_text("");
                put_bytes(line, length);
                put_text(with ? "\n" : "");
                check_assembled(expected.bytes, expected.length);
            }
        }
    set_text("");
    put_times(TEXT, ' ');
    check_refused_text(RUNNELOPAL_LINE_TOO_LONG, 0);
}

/* More statements than a script may have are read too. Each one is another write. */
static void many_statements(void)
{
    static const size_t counts[] = {MOST - 1, MOST, MOST + 1, 2 * MOST, 2 * MOST + 1, 5000};
    static uint8_t expected[RECORD * 5000];
    char line[RUNNELOPAL_LINE_BYTES];
    for (size_t k = 0; k < 5000; k++) {
        records one = {{0}, 0};
        write_record(&one, 2, (uint32_t)(7 * k), (uint32_t)k);
        memcpy(expected + RECORD * k, one.bytes, RECORD);
    }
    for (size_t k = 0; k < sizeof counts / sizeof *counts; k++) {
        set_text("");
        for (size_t place = 0; place < counts[k]; place++) {
            snprintf(line, sizeof line, "write 2 %u %Xh\n", (unsigned)(7 * place), (unsigned)place);
            put_text(line);
        }
        check_assembled(expected, RECORD * counts[k]);
        runnelopal_compile_answer compiled = runnelopal_compile(expected, RECORD * counts[k], NULL, 0);
        CHECK((compiled.refusal == RUNNELOPAL_BAD_LENGTH) == (counts[k] > MOST));
        put_text("read 3 2Eh");
        check_refused_text(RUNNELOPAL_NUMBER_TOO_BIG, counts[k]);
    }
    set_text("");
    put_times(TEXT - 1, '\n'); /* more lines than 16 bits can count */
    put_text("x");
    check_refused_text(RUNNELOPAL_NOT_IN_GRAMMAR, TEXT - 1);
}

static void listings(void)
{
    set_text("");
    fresh(&all);
    check_listed(&all.script);
    CHECK(text_bytes == 0);

    set_text("write 1 002Eh 55h\n"
             "write 2 AC08h 0001h\n"
             "write 4 AC14h 0000111Fh\n"
             "read 1 002Fh\n"
             "delay 0\n"
             "delay 1000\n"
             "repeat 3\n"
             "    delay 65535\n"
             "    if 2 AC08h 0001h\n"
             "        write 1 0000h 0Ah\n"
             "    else\n"
             "        read 4 FFFFh\n"
             "        if 4 0B00h FFFFFFFFh\n"
             "        end\n"
             "    end\n"
             "end\n"
             "end\n" /* no block is open */
             "else\n"
             "read 2 AC08h\n"
             "repeat 10\n"
             "else\n"
             "    if 1 002Eh 00h\n");
    write_record(&all.script, 1, 0x2E, 0x55);
    write_record(&all.script, 2, PM1A_STS, 1);
    write_record(&all.script, 4, SETUP_DATA, 0x111F);
    read_record(&all.script, 1, 0x2F);
    record(&all.script, RUNNELOPAL_SCRIPT_DELAY, 0, 0, 0);
    record(&all.script, RUNNELOPAL_SCRIPT_DELAY, 0, 0, 1000);
    record(&all.script, RUNNELOPAL_SCRIPT_REPEAT, 0, 0, 3);
    record(&all.script, RUNNELOPAL_SCRIPT_DELAY, 0, 0, 65535);
    record(&all.script, RUNNELOPAL_SCRIPT_IF, 2, PM1A_STS, 1);
    write_record(&all.script, 1, 0, 0x0A);
    record(&all.script, RUNNELOPAL_SCRIPT_ELSE, 0, 0, 0);
    read_record(&all.script, 4, 0xFFFF);
    record(&all.script, RUNNELOPAL_SCRIPT_IF, 4, 0x0B00, 0xFFFFFFFF);
    record(&all.script, RUNNELOPAL_SCRIPT_END, 0, 0, 0);
    record(&all.script, RUNNELOPAL_SCRIPT_END, 0, 0, 0);
    record(&all.script, RUNNELOPAL_SCRIPT_END, 0, 0, 0);
    record(&all.script, RUNNELOPAL_SCRIPT_END, 0, 0, 0);
    record(&all.script, RUNNELOPAL_SCRIPT_ELSE, 0, 0, 0);
    read_record(&all.script, 2, PM1A_STS);
    record(&all.script, RUNNELOPAL_SCRIPT_REPEAT, 0, 0, 10);
    record(&all.script, RUNNELOPAL_SCRIPT_ELSE, 0, 0, 0);
    record(&all.script, RUNNELOPAL_SCRIPT_IF, 1, 0x2E, 0);
    check_listed(&all.script);

    /* Twenty blocks, and all writes inside them: the lines are indented for 16. This is almost the longest listing. */
    set_text("");
    fresh(&all);
    for (size_t k = 0; k < MOST; k++) {
        put_times(4 * (k < 16 ? k : 16), ' ');
        put_text(k < 20 ? "if 4 AC18h 80000000h\n" : "write 4 AC14h 0000111Fh\n");
        if (k < 20)
            record(&all.script, RUNNELOPAL_SCRIPT_IF, 4, TIMER, 0x80000000);
        else
            write_record(&all.script, 4, SETUP_DATA, 0x111F);
    }
    CHECK(text_bytes <= RUNNELOPAL_TEXT_BYTES);
    check_listed(&all.script);

    /* The ends close the blocks that are not indented too. */
    set_text("");
    fresh(&all);
    for (size_t k = 0; k < 50; k++) {
        const size_t open = k < 25 ? k : 49 - k;
        put_times(4 * (open < 16 ? open : 16), ' ');
        put_text(k < 25 ? "repeat 2\n" : "end\n");
        record(&all.script, k < 25 ? RUNNELOPAL_SCRIPT_REPEAT : RUNNELOPAL_SCRIPT_END, 0, 0, k < 25 ? 2 : 0);
    }
    check_listed(&all.script);
}

/* Each script of the command line. */
static int scripts;
static char **script_names;

static void round_trips(void)
{
    for (int k = 0; k < scripts; k++) {
        fresh(&all);
        FILE *file = fopen(script_names[k], "rb");
        CHECK(file != NULL);
        if (file == NULL)
            continue;
        all.script.length = fread(all.script.bytes, 1, sizeof all.script.bytes, file);
        fclose(file);
        check_round_trip(&all.script);
    }
}

static void null_pointers(void)
{
    busy(&all);
    memcpy(&other, &all, sizeof other);
    /* A null pointer stands for an empty buffer, whatever the number. */
    for (size_t many = 0; many <= DEVICE; many += DEVICE) {
        runnelopal_compile_answer compiled = runnelopal_compile(all.script.bytes, all.script.length, NULL, many);
        CHECK(compiled.refusal == RUNNELOPAL_BUFFER_TOO_SHORT && compiled.place == 3);
        compiled = runnelopal_compile(NULL, many, NULL, many);
        CHECK(compiled.refusal == RUNNELOPAL_BUFFER_TOO_SHORT && compiled.place == 0);

        set_text("\nend");
        runnelopal_assemble_answer read = runnelopal_assemble(text, text_bytes, NULL, many);
        CHECK(read.refusal == RUNNELOPAL_RECORDS_TOO_SHORT && read.place == 0 && read.records == 0);
        read = runnelopal_assemble(text, text_bytes - 1, NULL, many);
        CHECK(read.refusal == RUNNELOPAL_NOT_IN_GRAMMAR && read.place == 1 && read.records == 0);
        read = runnelopal_assemble(text, 1, NULL, many);
        CHECK(read.refusal == 0 && read.place == 0 && read.records == 0);
        read = runnelopal_assemble(NULL, many, NULL, many);
        CHECK(read.refusal == 0 && read.place == 0 && read.records == 0);
        read = runnelopal_assemble(NULL, many, all.image.bytes, all.image.length);
        CHECK(read.refusal == 0 && read.place == 0 && read.records == 0);
        runnelopal_list_answer listed = runnelopal_list(all.script.bytes, all.script.length, NULL, many);
        CHECK(listed.refusal == RUNNELOPAL_TEXT_TOO_SHORT && listed.place == 0 && listed.length == 0);
        listed = runnelopal_list(NULL, many, NULL, many);
        CHECK(listed.refusal == 0 && listed.place == 0 && listed.length == 0);
        listed = runnelopal_list(NULL, many, all.image.bytes, all.image.length);
        CHECK(listed.refusal == 0 && listed.place == 0 && listed.length == 0);

        CHECK(refused(runnelopal_run(NULL, many, NULL, many, NULL, many, NULL, many, 9, NULL, many), RUNNELOPAL_BAD_IMAGE, 0));
        CHECK(refused(runnelopal_run(NULL, many, all.device, DEVICE, all.sequencer, SEQUENCER, NULL, many, 9, all.log, 8),
                      RUNNELOPAL_BAD_IMAGE, 0));
        CHECK(refused(runnelopal_run(all.image.bytes, all.image.length, NULL, many, all.sequencer, SEQUENCER, NULL, many, 9, all.log, 8),
                      RUNNELOPAL_BAD_STATE, 0));
        CHECK(refused(runnelopal_run(all.image.bytes, all.image.length, all.device, DEVICE, NULL, many, NULL, many, 9, all.log, 8),
                      RUNNELOPAL_BAD_STATE, 0));
        CHECK(refused(runnelopal_interpret(all.script.bytes, all.script.length, NULL, many, NULL, many, 9, NULL, many), RUNNELOPAL_BAD_STATE, 0));

        CHECK(runnelopal_access(NULL, many, false, 1, 0x2E, 0).refusal == RUNNELOPAL_BAD_STATE);
        CHECK(runnelopal_event(NULL, many, NO_TICKS).refusal == RUNNELOPAL_BAD_STATE);
        CHECK(runnelopal_outputs(NULL, many).refusal == RUNNELOPAL_BAD_STATE);
        CHECK(runnelopal_fresh_device(NULL, many) == RUNNELOPAL_BAD_STATE);
        CHECK(!runnelopal_valid_device(NULL, many));
    }
    for (size_t many = 0; many <= SEQUENCER; many += SEQUENCER) {
        CHECK(runnelopal_sequencer(NULL, many).refusal == RUNNELOPAL_BAD_STATE);
        CHECK(runnelopal_fresh_sequencer(NULL, many) == RUNNELOPAL_BAD_STATE);
        CHECK(!runnelopal_valid_sequencer(NULL, many));
    }
    CHECK(memcmp(&all, &other, sizeof all) == 0);

    runnelopal_compile_answer empty = runnelopal_compile(NULL, 0, all.image.bytes, RUNNELOPAL_IMAGE_BYTES);
    CHECK(empty.refusal == 0 && empty.words == 1);
    runnelopal_run_answer halted = runnelopal_run(all.image.bytes, RECORD, all.device, DEVICE, all.sequencer, SEQUENCER, NULL, 0, 9, NULL, 0);
    CHECK(halted.outcome == RUNNELOPAL_HALTED && halted.steps == 1 && halted.taken == 0 && halted.logged == 0);
    CHECK(same_answer(halted, runnelopal_interpret(NULL, 0, all.device, DEVICE, NULL, 0, 9, NULL, 0)));
    runnelopal_run_answer full = runnelopal_interpret(all.script.bytes, all.script.length, all.device, DEVICE, NULL, 0, 9, NULL, 0);
    CHECK(full.outcome == RUNNELOPAL_LOG_FULL && full.steps == 1 && full.logged == 0);
}

int main(int argc, char **argv)
{
    static const struct {
        const char *name;
        void (*run)(void);
    } tests[] = {
        {"numbers", numbers},
        {"script lengths", script_lengths},
        {"record faults", record_faults},
        {"blocks", blocks},
        {"words", words},
        {"bad images", bad_images},
        {"bad devices", bad_devices},
        {"bad sequencers", bad_sequencers},
        {"bad events", bad_events},
        {"bad accesses", bad_accesses},
        {"valid bytes", valid_bytes},
        {"endings", endings},
        {"power events", power_events},
        {"monitor events", monitor_events},
        {"pin events", pin_events},
        {"reset in the middle", reset_in_the_middle},
        {"single calls", single_calls},
        {"parts", parts},
        {"counters", counters},
        {"statements", statements},
        {"lines", lines},
        {"not in the grammar", not_in_grammar},
        {"numbers too big", numbers_too_big},
        {"long lines", long_lines},
        {"many statements", many_statements},
        {"listings", listings},
        {"round trips", round_trips},
        {"null pointers", null_pointers},
    };
    scripts = argc - 1;
    script_names = argv + 1;
    for (size_t k = 0; k < sizeof tests / sizeof *tests; k++) {
        test = tests[k].name;
        item = 0;
        tests[k].run();
    }
    printf("%lu checks of the C calls, %lu failed\n", checks, failures);
    return failures != 0;
}
