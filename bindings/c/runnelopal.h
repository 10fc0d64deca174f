/* Runnelopal from C: reads, lists, compiles or interprets board setup scripts, runs them on a model of the chip, and makes single register
 * accesses.
 *
 * Link with target/staticlib/librunnelopal.a, which `.ci/build runnelopal` builds. docs/CHIP.md describes the chip, its registers,
 * scripts, images and events; docs/TEXT.md describes text scripts and listings; docs/STATE.md has the layouts of a saved device and of a
 * saved sequencer. The header is C99 and C++11. Complete programs: bindings/c/text.c (a text script), example.c (a whole run), resume.c (a
 * run in parts), single_step.c (word by word).
 *
 * The library keeps nothing between two calls. A device and a sequencer are bytes of the caller: a call reads them and, if it is not
 * refused, replaces them by those after it. A new run starts from a fresh sequencer, on a fresh device or any other: see
 * runnelopal_fresh_sequencer and runnelopal_fresh_device.
 *
 * Every buffer is passed as a pointer and a number of elements. A null pointer stands for a buffer without elements, whatever the number.
 * Any other pointer must be to that many elements, and a buffer that a call writes must not overlap any other buffer of the same call.
 * There are no other preconditions: every byte and number is a valid argument, and a call that cannot do what it is asked to do
 * is refused.
 *
 * Most calls return a struct. Its first field is 0 or the number of a refusal; for a run it is also how the run ended. After a refusal
 * `place` is the place of the fault, all other numbers are 0 and all outputs are false, and the call has changed no buffer.
 */
#ifndef RUNNELOPAL_H
#define RUNNELOPAL_H

#include <stdbool.h>
#include <stddef.h>
#include <stdint.h>

#ifdef __cplusplus
extern "C" {
#endif

/* ---- Sizes */

#define RUNNELOPAL_DEVICE_BYTES 106   /* a saved device */
#define RUNNELOPAL_SEQUENCER_BYTES 40 /* a saved sequencer */
#define RUNNELOPAL_IMAGE_BYTES 12288  /* an image buffer of this size is large enough for every script */
#define RUNNELOPAL_RECORD_BYTES 12    /* a script record, and an image word */
#define RUNNELOPAL_SCRIPT_BYTES 12288 /* the longest script that is compiled, interpreted or listed: 1,024 records */
#define RUNNELOPAL_LINE_BYTES 120     /* the longest line of a text script, without its LF */
#define RUNNELOPAL_TEXT_BYTES 90112   /* a text buffer of this size is large enough for every listing: 1,024 lines of at most 88 bytes */
#define RUNNELOPAL_COUNTERS 8         /* the loop counters of a sequencer, in use or not */

/* ---- Refusals */

#define RUNNELOPAL_BAD_LENGTH 1       /* the script's length is not a multiple of 12, or it has more than 1,024 records; place 0 */
#define RUNNELOPAL_WRONG_MARK 2       /* wrong mark; the place is the number of the record, as for 3 to 6, counted from 0 */
#define RUNNELOPAL_BAD_KIND 3         /* the kind of the record is not 1 to 7 */
#define RUNNELOPAL_BAD_FIELD 4        /* wrong width, value or unused field; for an access: wrong width, port or value, place 0 */
#define RUNNELOPAL_MISPLACED 5        /* an else whose innermost open block is not an if without else; an end with no open block */
#define RUNNELOPAL_TOO_DEEP 6         /* a block inside 16 open blocks, or a repeat inside 8 open repeats */
#define RUNNELOPAL_STILL_OPEN 7       /* a block is still open at the end; the place is the number of records, as for 8 and 9 */
#define RUNNELOPAL_TOO_MANY_WORDS 8   /* the image would have more than 1,024 words */
#define RUNNELOPAL_BUFFER_TOO_SHORT 9 /* the image buffer is too short */
#define RUNNELOPAL_BAD_IMAGE 10       /* the image is empty, not a multiple of 12 bytes, or has more than 1,024 words; place 0 */
#define RUNNELOPAL_BAD_STATE 11       /* the bytes are not a valid device, or not a valid sequencer; place 0 */
#define RUNNELOPAL_BAD_EVENT 12       /* not an event; in a run, the place is its index, or 4096 if there are more than 4,096 events */

/* Of text scripts. */
#define RUNNELOPAL_LINE_TOO_LONG 30     /* a line of more than 120 bytes; the place is the number of the line, as for 31 and 32, counted from 0 */
#define RUNNELOPAL_NOT_IN_GRAMMAR 31    /* the line is not in the grammar */
#define RUNNELOPAL_NUMBER_TOO_BIG 32    /* a width other than 1, 2 and 4, or a port, value or count that does not fit */
#define RUNNELOPAL_RECORDS_TOO_SHORT 33 /* the record buffer is too short; place 0, as for 34 */
#define RUNNELOPAL_TEXT_TOO_SHORT 34    /* the text buffer is too short */

/* ---- How a run ended. 20 to 24 are faults: the word at fault is not executed, and takes no event. */

#define RUNNELOPAL_HALTED 0            /* executed a halt */
#define RUNNELOPAL_BUDGET_SPENT 19     /* executed as many words as the budget allows, without a halt */
#define RUNNELOPAL_BAD_WORD 20         /* the word has a wrong mark, kind, width, value or unused field */
#define RUNNELOPAL_BEYOND_LAST_WORD 21 /* the place of the sequencer, or the target of the word, is after the last word */
#define RUNNELOPAL_NINTH_COUNTER 22    /* the word enters a loop, and eight loops are open */
#define RUNNELOPAL_NO_COUNTER 23       /* the word ends a loop, and no loop is open */
#define RUNNELOPAL_LOG_FULL 24         /* the word is a read, and the log has no room for its value */

/* ---- Status of an access. With a status other than 0 the access itself changes nothing. 3 is retired and is not used again. */

#define RUNNELOPAL_STATUS_DONE 0      /* done */
#define RUNNELOPAL_STATUS_UNCLAIMED 1 /* no block claims the port, or the block does not take the access; a read returns all ones */
#define RUNNELOPAL_STATUS_BLOCKED 2   /* blocked by a lock, or a write to a read-only register; a read returns 0, as for 4 */
#define RUNNELOPAL_STATUS_ABSENT 4    /* the index does not name a register */
#define RUNNELOPAL_STATUS_IGNORED 5   /* the register does not accept the value; the write is ignored */

/* ---- Owner of a port: the block that answers there. It depends on the configuration of the device. An answer names the owner at the
 * moment of the access. */

#define RUNNELOPAL_OWNER_NOBODY 0        /* no block claims the port */
#define RUNNELOPAL_OWNER_CONFIGURATION 1 /* 002Eh and 002Fh */
#define RUNNELOPAL_OWNER_ACPI 2          /* AC00h to AC1Fh */
#define RUNNELOPAL_OWNER_MONITOR 3       /* runtime base + 70h and + 71h */
#define RUNNELOPAL_OWNER_KEY 4           /* key base to key base + 31 */

/* ---- Events from outside the chip */

/* The number of an event: the kind in bits 31 to 24, the operand below. It is a constant if both are. A kind or an operand that has more
 * bits gives FFFFFFFFh, which is not an event, so that it is refused and not taken for another event. Example:
 * RUNNELOPAL_EVENT(RUNNELOPAL_EVENT_PIN, 2 | RUNNELOPAL_PIN_HIGH) sets pin 2 to high. */
#define RUNNELOPAL_EVENT(kind, operand) \
    ((uint64_t)(kind) <= 0xFF && (uint64_t)(operand) <= 0xFFFFFF ? (uint32_t)(kind) << 24 | (uint32_t)(operand) : (uint32_t)0xFFFFFFFF)

/* Kinds of events. */
#define RUNNELOPAL_EVENT_TICKS 1      /* advances the timer; the operand is the number of ticks, 0 to 65,535 */
#define RUNNELOPAL_EVENT_PIN 2        /* the operand is the pin, 0 to 7, and RUNNELOPAL_PIN_HIGH for a high level */
#define RUNNELOPAL_EVENT_RTC_ALARM 3  /* operand 0 */
#define RUNNELOPAL_EVENT_BUS_MASTER 4 /* operand 0 */
#define RUNNELOPAL_EVENT_SENSOR 5     /* sets status bits of the monitor; the operand is a sum of RUNNELOPAL_SENSOR_.. */
#define RUNNELOPAL_EVENT_RESET 6      /* the operand is one of RUNNELOPAL_RESET_.. */
#define RUNNELOPAL_EVENT_BUTTON 7     /* button held; operand 0 */

/* Bits of the operand of a pin event. */
#define RUNNELOPAL_PIN_NUMBER 0x07 /* the pin */
#define RUNNELOPAL_PIN_HIGH 0x08   /* its new level: set for high, clear for low */

/* Bits of the operand of a sensor event. */
#define RUNNELOPAL_SENSOR_VTR 0x01
#define RUNNELOPAL_SENSOR_VBAT 0x02

/* Resets. Each one includes those before it. */
#define RUNNELOPAL_RESET_PCI 0  /* the configuration */
#define RUNNELOPAL_RESET_VCC 1  /* also the monitor */
#define RUNNELOPAL_RESET_VTR 2  /* also the ACPI block, except for the levels of the pins */
#define RUNNELOPAL_RESET_VBAT 3 /* also the levels and the key bytes: the fresh device */

/* ---- Records and words: 12 bytes each. Mark (2 bytes), kind (1), width (1), port (2), target (2), value (4), low bytes first. */

#define RUNNELOPAL_SCRIPT_MARK 0xA55A /* the mark of a script record: bytes 5Ah A5h */
#define RUNNELOPAL_WORD_MARK 0x3CC3   /* the mark of an image word: bytes C3h 3Ch */

/* Kinds of script records. */
#define RUNNELOPAL_SCRIPT_WRITE 1
#define RUNNELOPAL_SCRIPT_READ 2
#define RUNNELOPAL_SCRIPT_DELAY 3
#define RUNNELOPAL_SCRIPT_REPEAT 4
#define RUNNELOPAL_SCRIPT_IF 5
#define RUNNELOPAL_SCRIPT_ELSE 6
#define RUNNELOPAL_SCRIPT_END 7

/* Kinds of image words. */
#define RUNNELOPAL_WORD_WRITE 1
#define RUNNELOPAL_WORD_READ 2
#define RUNNELOPAL_WORD_DELAY 3
#define RUNNELOPAL_WORD_ENTER 4
#define RUNNELOPAL_WORD_LOOP_END 5
#define RUNNELOPAL_WORD_TEST 6
#define RUNNELOPAL_WORD_JUMP 7
#define RUNNELOPAL_WORD_HALT 8

/* ---- Answers */

/* The levels of the outputs: SCI, SMI and the monitor interrupt. */
typedef struct runnelopal_output_levels {
    bool sci;
    bool smi;
    bool monitor;
} runnelopal_output_levels;

typedef struct runnelopal_compile_answer {
    uint32_t refusal; /* 0, or 1 to 9 */
    uint32_t place;   /* of the refusal */
    uint32_t words;   /* the image is RUNNELOPAL_RECORD_BYTES times this many bytes long */
} runnelopal_compile_answer;

typedef struct runnelopal_assemble_answer {
    uint32_t refusal; /* 0, or 30 to 33 */
    size_t place;     /* of the refusal */
    size_t records;   /* the script is RUNNELOPAL_RECORD_BYTES times this many bytes long */
} runnelopal_assemble_answer;

typedef struct runnelopal_list_answer {
    uint32_t refusal; /* 0, 1 to 4, or 34 */
    uint32_t place;   /* of the refusal */
    size_t length;    /* the listing is this many bytes long */
} runnelopal_list_answer;

typedef struct runnelopal_run_answer {
    uint32_t outcome; /* how the run ended, or a refusal; runnelopal_is_refusal tells which */
    uint32_t place;   /* of the refusal */
    uint32_t steps;   /* words executed, a halt included */
    size_t taken;     /* events applied */
    size_t logged;    /* values logged: so many entries of the log are filled, from its front */
    runnelopal_output_levels outputs; /* of the device after the run */
} runnelopal_run_answer;

typedef struct runnelopal_access_answer {
    uint32_t refusal; /* 0, 11 or 4 */
    uint32_t place;   /* 0 */
    uint32_t status;  /* one of RUNNELOPAL_STATUS_.. */
    uint32_t value;   /* the value read; 0 for a write */
    uint32_t owner;   /* of the port: one of RUNNELOPAL_OWNER_.. */
    runnelopal_output_levels outputs; /* after the access */
} runnelopal_access_answer;

typedef struct runnelopal_outputs_answer {
    uint32_t refusal; /* 0, 11 or 12 */
    uint32_t place;   /* 0 */
    runnelopal_output_levels outputs;
} runnelopal_outputs_answer;

typedef struct runnelopal_sequencer_answer {
    uint32_t refusal; /* 0 or 11 */
    uint32_t place;   /* the index of the next word, or of the halt at which a run ended */
    uint32_t used;    /* how many counters are in use, which is how many loops are open */
    uint32_t counters[RUNNELOPAL_COUNTERS]; /* the turns left in each open loop, the present one included, outermost first; others 0 */
} runnelopal_sequencer_answer;

/* ---- The symbols of the library. They take no null pointers; call the functions below, which do. */

runnelopal_compile_answer runnelopal_raw_compile(const uint8_t *script, size_t script_bytes, uint8_t *image, size_t image_bytes);
runnelopal_assemble_answer runnelopal_raw_assemble(const uint8_t *text, size_t text_bytes, uint8_t *records, size_t record_bytes);
runnelopal_list_answer runnelopal_raw_list(const uint8_t *script, size_t script_bytes, uint8_t *text, size_t text_bytes);
runnelopal_run_answer runnelopal_raw_run(const uint8_t *image, size_t image_bytes, uint8_t *device, size_t device_bytes,
                                         uint8_t *sequencer, size_t sequencer_bytes, const uint32_t *events, size_t event_count,
                                         uint32_t budget, uint64_t *log, size_t log_count);
runnelopal_run_answer runnelopal_raw_interpret(const uint8_t *script, size_t script_bytes, uint8_t *device, size_t device_bytes,
                                               const uint32_t *events, size_t event_count, uint32_t budget, uint64_t *log,
                                               size_t log_count);
runnelopal_access_answer runnelopal_raw_access(uint8_t *device, size_t device_bytes, bool write, uint32_t width, uint32_t port,
                                               uint32_t value);
runnelopal_outputs_answer runnelopal_raw_event(uint8_t *device, size_t device_bytes, uint32_t number);
runnelopal_outputs_answer runnelopal_raw_outputs(const uint8_t *device, size_t device_bytes);
uint32_t runnelopal_raw_fresh_device(uint8_t *device, size_t device_bytes);
uint32_t runnelopal_raw_fresh_sequencer(uint8_t *sequencer, size_t sequencer_bytes);
bool runnelopal_raw_valid_device(const uint8_t *device, size_t device_bytes);
bool runnelopal_raw_valid_sequencer(const uint8_t *sequencer, size_t sequencer_bytes);
runnelopal_sequencer_answer runnelopal_raw_sequencer(const uint8_t *sequencer, size_t sequencer_bytes);

/* The value and the owner of an entry of the log: its low 32 bits, and the bits above them. Every number is a valid argument. */
uint32_t runnelopal_entry_value(uint64_t entry);
uint32_t runnelopal_entry_owner(uint64_t entry);

/* ---- The functions */

/* Whether the outcome of a run is a refusal, 1 to 12. Otherwise it is how the run ended. */
static inline bool runnelopal_is_refusal(uint32_t outcome)
{
    return RUNNELOPAL_BAD_LENGTH <= outcome && outcome <= RUNNELOPAL_BAD_EVENT;
}

/* Compiles a script into the image buffer. Refusals: 1 to 9. The rest of the buffer, after the words, is not changed. */
static inline runnelopal_compile_answer runnelopal_compile(const uint8_t *script, size_t script_bytes, uint8_t *image, size_t image_bytes)
{
    uint8_t none = 0; /* in place of a null pointer, here and below: the library needs a pointer that is not null and is aligned */
    return runnelopal_raw_compile(script ? script : &none, script ? script_bytes : 0, image ? image : &none, image ? image_bytes : 0);
}

/* Reads a text script into the record buffer: one record for each statement. The rest of the buffer, after the records, is not changed.
 * Refusals: 30 to 32 for the first bad line, with the least number; 33 if no line is bad. Blocks are not checked, and the number of
 * statements is not limited; runnelopal_compile checks both. */
static inline runnelopal_assemble_answer runnelopal_assemble(const uint8_t *text, size_t text_bytes, uint8_t *records, size_t record_bytes)
{
    uint8_t none = 0;
    return runnelopal_raw_assemble(text ? text : &none, text ? text_bytes : 0, records ? records : &none, records ? record_bytes : 0);
}

/* Writes the listing of a script to the text buffer: a text script with one line for each record, without a zero byte at its end. The rest of
 * the buffer, after the listing, is not changed. Refusals: 1 to 4 for the script, then 34. runnelopal_assemble reads the listing as the same
 * records, byte for byte. */
static inline runnelopal_list_answer runnelopal_list(const uint8_t *script, size_t script_bytes, uint8_t *text, size_t text_bytes)
{
    uint8_t none = 0;
    return runnelopal_raw_list(script ? script : &none, script ? script_bytes : 0, text ? text : &none, text ? text_bytes : 0);
}

/* Runs an image on the saved device, from the place of the saved sequencer. `events` are the outside events; the next one is applied
 * before each register access. `budget` is the greatest number of words to execute. Each read of the image appends an entry to `log`: the
 * value and the owner of the port, which runnelopal_entry_value and runnelopal_entry_owner return. The rest of `log` is not changed.
 * Afterwards `device` and `sequencer` are those after the run. Refusals: 10, then 11 for the device or the sequencer, then 12.
 *
 * A run that ended with 19 is resumed with the same image, the device and the sequencer that it left, the events that it did not take
 * and the room that is left in the log. A budget of a and then of b gives the same as one run with a + b, if a + b fits 32 bits; steps,
 * taken and logged add up. With a budget of at least 1:
 *
 *     do {
 *         part = runnelopal_run(image, bytes, device, sizeof device, sequencer, sizeof sequencer, events, count, budget, log, room);
 *         events += part.taken, count -= part.taken, log += part.logged, room -= part.logged;
 *     } while (part.outcome == RUNNELOPAL_BUDGET_SPENT);
 *
 * A call with budget 1 executes one word. A run that is resumed after a halt halts again and counts one step, and after a fault the fault
 * occurs again. */
static inline runnelopal_run_answer runnelopal_run(const uint8_t *image, size_t image_bytes, uint8_t *device, size_t device_bytes,
                                                   uint8_t *sequencer, size_t sequencer_bytes, const uint32_t *events, size_t event_count,
                                                   uint32_t budget, uint64_t *log, size_t log_count)
{
    uint8_t none = 0;
    uint32_t no_event = 0;
    uint64_t no_log = 0;
    return runnelopal_raw_run(image ? image : &none, image ? image_bytes : 0, device ? device : &none, device ? device_bytes : 0,
                              sequencer ? sequencer : &none, sequencer ? sequencer_bytes : 0, events ? events : &no_event,
                              events ? event_count : 0, budget, log ? log : &no_log, log ? log_count : 0);
}

/* Interprets a script on the saved device: walks through its nested records, without an image and a sequencer. `events`, `budget` and `log`
 * are as for runnelopal_run. The result is that of compiling the script and running the image from a fresh sequencer: the same outcome,
 * steps, events, values logged, log and device, at every budget and every length of `log`. It always starts at the first record, so it
 * cannot be resumed. Refusals: 1 to 8 for the script, then 11, then 12. */
static inline runnelopal_run_answer runnelopal_interpret(const uint8_t *script, size_t script_bytes, uint8_t *device, size_t device_bytes,
                                                         const uint32_t *events, size_t event_count, uint32_t budget, uint64_t *log,
                                                         size_t log_count)
{
    uint8_t none = 0;
    uint32_t no_event = 0;
    uint64_t no_log = 0;
    return runnelopal_raw_interpret(script ? script : &none, script ? script_bytes : 0, device ? device : &none, device ? device_bytes : 0,
                                    events ? events : &no_event, events ? event_count : 0, budget, log ? log : &no_log,
                                    log ? log_count : 0);
}

/* Makes one access to the saved device: a read or a write of `width` bytes (1, 2 or 4) at a port from 0 to FFFFh. `value` is the value to
 * write; a read does not use it. Refusals: 11, then 4. */
static inline runnelopal_access_answer runnelopal_access(uint8_t *device, size_t device_bytes, bool write, uint32_t width, uint32_t port,
                                                         uint32_t value)
{
    uint8_t none = 0;
    return runnelopal_raw_access(device ? device : &none, device ? device_bytes : 0, write, width, port, value);
}

/* Applies one outside event to the saved device, and returns the outputs after it. RUNNELOPAL_EVENT makes the number. Refusals: 11, then
 * 12. */
static inline runnelopal_outputs_answer runnelopal_event(uint8_t *device, size_t device_bytes, uint32_t number)
{
    uint8_t none = 0;
    return runnelopal_raw_event(device ? device : &none, device ? device_bytes : 0, number);
}

/* The outputs of the saved device. Refusal: 11. */
static inline runnelopal_outputs_answer runnelopal_outputs(const uint8_t *device, size_t device_bytes)
{
    uint8_t none = 0;
    return runnelopal_raw_outputs(device ? device : &none, device ? device_bytes : 0);
}

/* Saves a fresh device, the chip after power-on, in `device`. Returns 0, or refusal 11, at place 0, if that is not
 * RUNNELOPAL_DEVICE_BYTES long. */
static inline uint32_t runnelopal_fresh_device(uint8_t *device, size_t device_bytes)
{
    uint8_t none = 0;
    return runnelopal_raw_fresh_device(device ? device : &none, device ? device_bytes : 0);
}

/* Saves a fresh sequencer in `sequencer`: place 0, no counter in use. Returns 0, or refusal 11, at place 0, if that is not
 * RUNNELOPAL_SEQUENCER_BYTES long. */
static inline uint32_t runnelopal_fresh_sequencer(uint8_t *sequencer, size_t sequencer_bytes)
{
    uint8_t none = 0;
    return runnelopal_raw_fresh_sequencer(sequencer ? sequencer : &none, sequencer ? sequencer_bytes : 0);
}

/* Whether the bytes are a valid device: whether no call refuses it with 11. */
static inline bool runnelopal_valid_device(const uint8_t *device, size_t device_bytes)
{
    uint8_t none = 0;
    return runnelopal_raw_valid_device(device ? device : &none, device ? device_bytes : 0);
}

/* Whether the bytes are a valid sequencer: whether no call refuses it with 11. */
static inline bool runnelopal_valid_sequencer(const uint8_t *sequencer, size_t sequencer_bytes)
{
    uint8_t none = 0;
    return runnelopal_raw_valid_sequencer(sequencer ? sequencer : &none, sequencer ? sequencer_bytes : 0);
}

/* The place and the counters of the saved sequencer. Refusal: 11. */
static inline runnelopal_sequencer_answer runnelopal_sequencer(const uint8_t *sequencer, size_t sequencer_bytes)
{
    uint8_t none = 0;
    return runnelopal_raw_sequencer(sequencer ? sequencer : &none, sequencer ? sequencer_bytes : 0);
}

#ifdef __cplusplus
}
#endif

#endif
