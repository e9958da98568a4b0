/*
 * stack: the stack of every kind of call of the library, as a Markdown table. A figure is the number of bytes from the caller's stack
 * pointer at the call down to the deepest byte that the call writes, its return address included. Each call is made on its own, on a
 * stack that is filled with a pattern before it, and on a device that is made for it.
 *
 * Two tests for each figure: the call answers and leaves what its kind says, otherwise the figure would be that of another path; and it
 * takes at most LIMIT bytes. The last line is `N passed, M failed`; exit status 1 if M is not 0.
 */
#define _DEFAULT_SOURCE
#include "kulduvost.h"
#include <stdio.h>
#include <string.h>
#include <ucontext.h>

/* "The management core has 32 KiB of stack." (document 02, W-203) */
#ifndef LIMIT
#define LIMIT 32768
#endif

/* ---- The painted stack */
enum { STACK = 128 * 1024, GUARD = 4096 /* at its low end, where no byte may be written: a call that reaches it may have gone further */ };
_Static_assert(LIMIT < STACK - 2 * GUARD, "the stack has room for a call that passes the limit");
static uint8_t stack[STACK] __attribute__((aligned(16)));
static ucontext_t here, there;
static void (*on_stack)(void);
static size_t lowest; /* the first byte from the low end that was written */
static uint8_t pattern;

/* A byte written that is the pattern's own is not seen. No byte is the same in both patterns, so one of two runs sees it. */
static const uint8_t patterns[] = {0x00, 0xff};

/* Each call goes to these instructions, which note the caller's stack pointer at the call and jump on to the function. The arguments of a
 * command that lie on the stack are so left out, whether the compiler pushes them or gives them a place in the caller's frame: they are
 * above the pointer noted. rax carries no argument. */
uintptr_t top;           /* the caller's stack pointer at the call */
void (*noted_for)(void); /* the function */
void noted(void);
__asm__(".pushsection .text\n"
        "noted:\n\t"
        "lea 8(%rsp), %rax\n\t"
        "mov %rax, top(%rip)\n\t"
        "jmp *noted_for(%rip)\n"
        ".popsection\n");
/* By a pointer that the compiler does not see through, so that it keeps to the calling convention. */
static void (*volatile noted_pointer)(void) = noted;

static uint8_t paint(size_t i) { return (uint8_t)(i * 167 + (i >> 8) * 13 + 90) ^ pattern; }

/* Looks for the deepest byte in its own frame: the functions of the C library that leave this stack write to it too. */
static void enter(void) {
    on_stack();
    lowest = 0;
    while (lowest < STACK && stack[lowest] == paint(lowest)) {
        lowest++;
    }
}

static size_t depth_of(void (*call)(void), uint8_t painted_with) {
    pattern = painted_with;
    for (lowest = 0; lowest < STACK; lowest++) {
        stack[lowest] = paint(lowest);
    }
    on_stack = call;
    getcontext(&there);
    there.uc_stack.ss_sp = stack;
    there.uc_stack.ss_size = STACK;
    there.uc_link = &here;
    makecontext(&there, enter, 0);
    swapcontext(&here, &there);
    return lowest < GUARD ? STACK : (size_t)(top - (uintptr_t)(stack + lowest));
}

/* ---- The calls, as the row that is measured has them */
static const struct row *now;
static kulduvost_device device;
static uint8_t reply[KULDUVOST_MAILBOX_SIZE];
static uint8_t area[KULDUVOST_LABEL_AREA_SIZE + 1]; /* the label area, and a byte more for a row that lends too much */
static const uint8_t record[KULDUVOST_EVENT_RECORD_SIZE];

struct answer {
    uint16_t code;
    uint8_t vector;
    uint64_t values[3]; /* the other fields of the answer, in their order */
};
static struct answer told;

struct row {
    const char *name;
    int few, many;      /* entries held before: 0 and 256, or the nearest numbers with which the kind occurs, or NONE */
    void (*call)(void);
    uint16_t opcode;    /* of a command of either mailbox */
    const uint8_t *payload;
    size_t length;      /* of a payload or an event record */
    size_t missing;     /* bytes that the reply buffer lacks */
    int area_more;      /* bytes that are lent of the area beyond 4,096; below 0: short of them */
    uint16_t units;     /* of make */
    uint64_t address;   /* of a media report or a line test */
    uint32_t lines;
    uint8_t type;
    uint8_t log;        /* of an event report */
    uint32_t long_by;   /* lines that each entry has beyond its first */
    bool flag_before;   /* the overflow flag is set before */
    int info_room;      /* records that log Info has room for before */
    bool disabled;      /* the interrupts of the logs are disabled before; otherwise enabled */
    /* before: a Sanitize runs; it is due to end, and the call ends it, but for a pool command (document 02, W-208) */
    enum { MEDIA_ENABLED, MEDIA_DISABLED, WORK_DUE } media;
    uint16_t code;      /* the answer expected */
    uint8_t vector;
    uint64_t values[3];
    int more_entries, more_lines, more_records; /* held after than before */
    int more_overflow;  /* counted after than before, all logs together */
    bool flag_set;      /* the call sets the overflow flag */
    const uint8_t *event; /* the record that log Info holds last after it; null: not looked at */
    size_t labels;      /* bytes of data that a Set LSA writes to the area */
};
enum { NONE = -1 };
/* The caller's time at which the device time was set, what it was set to, the caller's time of every call, and the device time then. A
 * Sanitize is started at that time too; DUE is the time of a call that ends it, and how far the device time has come meanwhile. */
enum { SET_AT = 400, SET_TO = 70000, TIME = 1000, DEVICE_TIME = SET_TO + (TIME - SET_AT) };
#define LASTS UINT64_C(4000000000)
#define DUE (TIME + LASTS)
#define AS_HELD UINT64_MAX /* expected: the number of lines held */

#define CALL(name, type, function, arguments, ...) \
    static void name(void) { \
        noted_for = (void (*)(void))function; \
        type a = ((__typeof__(&function))noted_pointer)arguments; \
        told = (struct answer){__VA_ARGS__}; \
    }
#define CALL_TIME (now->media == WORK_DUE ? DUE : TIME)
CALL(make, uint16_t, kulduvost_make, (&device, now->units, 0), .code = a)
CALL(command, kulduvost_command_answer, kulduvost_command,
     (&device, now->opcode, now->payload, now->length, CALL_TIME, area, (size_t)(KULDUVOST_LABEL_AREA_SIZE + now->area_more), reply,
      sizeof reply - now->missing),
     a.code, a.vector, {a.length})
CALL(pool_command, kulduvost_pool_answer, kulduvost_pool_command,
     (&device, now->opcode, now->payload, now->length, CALL_TIME, reply, sizeof reply - now->missing), .code = a.code,
     .values = {a.length})
CALL(event_report, kulduvost_event_answer, kulduvost_event_report, (&device, CALL_TIME, now->log, record, now->length), a.code, a.vector,
     {a.stored})
CALL(media_report, kulduvost_media_answer, kulduvost_media_report, (&device, CALL_TIME, now->address, now->lines, now->type),
     .code = a.code, .values = {a.stored, a.dropped})
CALL(line_test, kulduvost_line_answer, kulduvost_line_test, (&device, now->address), .code = a.code, .values = {a.answer, a.type})
CALL(event_status, kulduvost_event_status_answer, kulduvost_event_status, (&device), .values = {a.bits, a.waiting, a.highest})
CALL(damage_total, uint64_t, kulduvost_damage_total, (&device), .values = {a})
CALL(device_size, size_t, kulduvost_device_size, (), .values = {a})

/* ---- Addresses and payloads */
#define LINE ((uint64_t)KULDUVOST_LINE_SIZE)
#define END (KULDUVOST_UNIT_LINES * LINE)         /* of a device of one unit */
#define GAP (END / KULDUVOST_POISON_ENTRIES)      /* from entry to entry */
#define ENTRY (END / 2)                           /* the first entry, with as many below as above it where 256 are held */
#define FREE (ENTRY + GAP / 2)                    /* a line that no entry covers */
#define BYTES(n) (n) & 255, (n) >> 8 & 255, (n) >> 16 & 255, (n) >> 24 & 255, 0, 0, 0, 0

static const uint8_t none[1], too_long[KULDUVOST_MAILBOX_SIZE + 1], policy[5], timestamp[8] = {BYTES(SET_TO)};
static const uint8_t enabling[KULDUVOST_EVENT_LOGS] = {1, 1, 1, 1, 1};
static const uint8_t new_line[72] = {BYTES(FREE)}, first_line[72] = {BYTES(ENTRY)}, second_line[72] = {BYTES(ENTRY + LINE)};
static const uint8_t third_line[72] = {BYTES(ENTRY + 2 * LINE)}, unaligned[72] = {BYTES(ENTRY + 1)}, outside[72] = {BYTES(END)};
static const uint8_t all_lines[16] = {BYTES(0), BYTES(END / LINE)}, past_end[16] = {BYTES(LINE), BYTES(END / LINE)};
static const uint8_t no_entry[16] = {BYTES(FREE), BYTES(8)};
static const uint8_t log_info[1] = {KULDUVOST_LOG_INFO}, log_warning[1] = {KULDUVOST_LOG_WARNING}, log_five[6] = {KULDUVOST_EVENT_LOGS};
static const uint8_t clear_none[6] = {KULDUVOST_LOG_WARNING}, clear_oldest[8] = {KULDUVOST_LOG_INFO, 0, 1, 0, 0, 0, 1};
static const uint8_t clear_eight[22] = {KULDUVOST_LOG_INFO, 0, 8, 0, 0, 0, 1, 0, 2, 0, 3, 0, 4, 0, 5, 0, 6, 0, 7, 0, 8, 0};
static const uint8_t clear_all[6] = {KULDUVOST_LOG_FAILURE, 1}, clear_all_early[6] = {KULDUVOST_LOG_INFO, 1};
static const uint8_t clear_second[8] = {KULDUVOST_LOG_INFO, 0, 1, 0, 0, 0, 2};
/* as `clear_oldest` but for what is reserved, and a mode that is in the last byte (document 02, W-205) */
static const uint8_t clear_flagged[8] = {KULDUVOST_LOG_INFO, 0x80, 1, 0, 0, 0, 1}, clear_reserved[8] = {KULDUVOST_LOG_INFO, 0, 1, 0, 0, 1, 1};
static const uint8_t mode_two[5] = {0, 0, 0, 0, 2};
#define EFFECTS 0x0d, 0xa9, 0xc0, 0xb5, 0xbf, 0x41, 0x4b, 0x78, 0x8f, 0x79, 0x96, 0xb1, 0x62, 0x3b, 0x3f, 0x17
static const uint8_t whole_log[24] = {EFFECTS, 0, 0, 0, 0, 60}, log_past[24] = {EFFECTS, 1, 0, 0, 0, 60}, other_log[24] = {0};
static const uint8_t pool_log[24] = {EFFECTS, 0, 0, 0, 0, 28}; /* the whole one of the second mailbox */
/* offset 4, then length 4 of a Get LSA or reserved 4 of a Set LSA, whose data are zeros (document 02, W-206) */
#define HALVES(low, high) (low) & 255, (low) >> 8, 0, 0, (high) & 255, (high) >> 8, 0, 0
static const uint8_t get_half[8] = {HALVES(2048, 2048)}, get_none[8] = {HALVES(4096, 0)}, get_longer[8] = {HALVES(0, 2049)};
static const uint8_t get_past[8] = {HALVES(2049, 2048)}, set_none[8] = {HALVES(4096, 0)}, set_reserved[9] = {HALVES(0, 1)};
static const uint8_t set_most[KULDUVOST_MAILBOX_SIZE] = {HALVES(2056, 0)}, set_past[KULDUVOST_MAILBOX_SIZE] = {HALVES(2057, 0)};

/* The event that an injection reports (document 02, W-204): "128 zero bytes with length 128 at byte 16, the address at bytes 48 to 55, then
 * handle and time as always". */
#define INJECTED(handle) {[16] = 128, [20] = handle, [24] = BYTES(DEVICE_TIME), [48] = BYTES(FREE)}
static const uint8_t first_event[KULDUVOST_EVENT_RECORD_SIZE] = INJECTED(1), second_event[KULDUVOST_EVENT_RECORD_SIZE] = INJECTED(2);
/* and the one of `record`, with which `prepare` filled log Info */
static const uint8_t eighth_event[KULDUVOST_EVENT_RECORD_SIZE] = {[20] = 8, [24] = BYTES(DEVICE_TIME)};
/* both as the first record of a log that the end of a Sanitize emptied: "next handles go on" (document 02, W-207) */
static const uint8_t ninth_event[KULDUVOST_EVENT_RECORD_SIZE] = {[20] = 9, [24] = BYTES(DEVICE_TIME + LASTS)};
static const uint8_t ninth_injected[KULDUVOST_EVENT_RECORD_SIZE] = {[16] = 128, [20] = 9, [24] = BYTES(DEVICE_TIME + LASTS),
                                                                    [48] = BYTES(FREE)};

/* ---- The kinds of calls */
#define MAKE(n) .call = make, .units = n
#define WITH(name, bytes, size) .opcode = KULDUVOST_##name, .payload = bytes, .length = size
#define ASK(name, bytes, size) .call = command, WITH(name, bytes, size)
#define POOL(name, bytes, size) .call = pool_command, WITH(name, bytes, size)
#define EVENT(to, size) .call = event_report, .log = KULDUVOST_##to, .length = size
#define MEDIA(at, count, kind) .call = media_report, .address = at, .lines = count, .type = kind
#define TEST(at) .call = line_test, .address = at
#define RAISES(log) .vector = KULDUVOST_VECTOR_##log
#define ONE_LINE_MORE .more_entries = 1, .more_lines = 1
#define REFUSED(why) .code = KULDUVOST_##why
#define STARTS .code = KULDUVOST_STARTED
#define BLOCKED .media = MEDIA_DISABLED, REFUSED(MEDIA_DISABLED)
#define ENDS .media = WORK_DUE
#define BAD_LENGTH REFUSED(INVALID_PAYLOAD_LENGTH)
#define BAD_INPUT REFUSED(INVALID_INPUT)
#define BAD_ADDRESS REFUSED(INVALID_PHYSICAL_ADDRESS)

static const struct row rows[] = {
    {"make", 0, NONE, MAKE(1)},
    {"make, refused", 0, NONE, MAKE(0), BAD_INPUT},
    {"Get Event Records, none held", 0, 256, ASK(GET_EVENT_RECORDS, log_warning, 1), .values = {32}},
    {"Get Event Records, 8 held", 0, 256, ASK(GET_EVENT_RECORDS, log_info, 1), .values = {32 + 8 * 128}},
    {"Get Event Records, refused: length", 0, 256, ASK(GET_EVENT_RECORDS, log_info, 0), BAD_LENGTH},
    {"Get Event Records, refused: log", 0, 256, ASK(GET_EVENT_RECORDS, log_five, 1), BAD_INPUT},
    {"Clear Event Records, none of an empty log", 0, 256, ASK(CLEAR_EVENT_RECORDS, clear_none, 6)},
    {"Clear Event Records, the oldest of 8", 0, 256, ASK(CLEAR_EVENT_RECORDS, clear_oldest, 8), .more_records = -1},
    {"Clear Event Records, all 8 by their handles", 0, 256, ASK(CLEAR_EVENT_RECORDS, clear_eight, 22), .more_records = -8},
    {"Clear Event Records, Clear All of 8", 0, 256, ASK(CLEAR_EVENT_RECORDS, clear_all, 6), .more_records = -8,
     .more_overflow = -1},
    {"Clear Event Records, refused: length", 0, 256, ASK(CLEAR_EVENT_RECORDS, clear_oldest, 7), BAD_LENGTH},
    {"Clear Event Records, refused: flag bit 7", 0, 256, ASK(CLEAR_EVENT_RECORDS, clear_flagged, 8), BAD_INPUT},
    {"Clear Event Records, refused: reserved byte", 0, 256, ASK(CLEAR_EVENT_RECORDS, clear_reserved, 8), BAD_INPUT},
    {"Clear Event Records, refused: log", 0, 256, ASK(CLEAR_EVENT_RECORDS, log_five, 6), BAD_INPUT},
    {"Clear Event Records, refused: Clear All", 0, 256, ASK(CLEAR_EVENT_RECORDS, clear_all_early, 6), BAD_INPUT},
    {"Clear Event Records, refused: handle", 0, 256, ASK(CLEAR_EVENT_RECORDS, clear_second, 8), REFUSED(INVALID_HANDLE)},
    {"Get Event Interrupt Policy", 0, 256, ASK(GET_EVENT_INTERRUPT_POLICY, none, 0), .values = {5}},
    {"Get Event Interrupt Policy, refused: length", 0, 256, ASK(GET_EVENT_INTERRUPT_POLICY, none, 1), BAD_LENGTH},
    {"Set Event Interrupt Policy", 0, 256, ASK(SET_EVENT_INTERRUPT_POLICY, policy, 5)},
    {"Set Event Interrupt Policy, refused: length", 0, 256, ASK(SET_EVENT_INTERRUPT_POLICY, policy, 3), BAD_LENGTH},
    {"Set Event Interrupt Policy, refused: mode", 0, 256, ASK(SET_EVENT_INTERRUPT_POLICY, mode_two, 5), BAD_INPUT},
    {"Get Timestamp", 0, 256, ASK(GET_TIMESTAMP, none, 0), .values = {8}},
    {"Get Timestamp, refused: length", 0, 256, ASK(GET_TIMESTAMP, none, 1), BAD_LENGTH},
    {"Set Timestamp", 0, 256, ASK(SET_TIMESTAMP, timestamp, 8)},
    {"Set Timestamp, refused: length", 0, 256, ASK(SET_TIMESTAMP, timestamp, 7), BAD_LENGTH},
    {"Get Supported Logs", 0, 256, ASK(GET_SUPPORTED_LOGS, none, 0), .values = {28}},
    {"Get Supported Logs, refused: length", 0, 256, ASK(GET_SUPPORTED_LOGS, none, 1), BAD_LENGTH},
    {"Get Log, all of it", 0, 256, ASK(GET_LOG, whole_log, 24), .values = {60}},
    {"Get Log, refused: length", 0, 256, ASK(GET_LOG, whole_log, 23), BAD_LENGTH},
    {"Get Log, refused: identifier", 0, 256, ASK(GET_LOG, other_log, 24), REFUSED(INVALID_LOG)},
    {"Get Log, refused: range", 0, 256, ASK(GET_LOG, log_past, 24), BAD_INPUT},
    {"Identify", 0, 256, ASK(IDENTIFY, none, 0), .values = {69}},
    {"Identify, refused: length", 0, 256, ASK(IDENTIFY, none, 1), BAD_LENGTH},
    {"Get LSA, no byte", 0, 256, ASK(GET_LSA, get_none, 8)},
    {"Get LSA, 2,048 bytes", 0, 256, ASK(GET_LSA, get_half, 8), .values = {2048}},
    {"Get LSA, refused: length", 0, 256, ASK(GET_LSA, get_half, 7), BAD_LENGTH},
    {"Get LSA, refused: media disabled", 0, 256, ASK(GET_LSA, get_half, 8), BLOCKED},
    {"Get LSA, refused: over 2,048 bytes", 0, 256, ASK(GET_LSA, get_longer, 8), BAD_INPUT},
    {"Get LSA, refused: past the end", 0, 256, ASK(GET_LSA, get_past, 8), BAD_INPUT},
    {"Set LSA, no data", 0, 256, ASK(SET_LSA, set_none, 8)},
    {"Set LSA, 2,040 bytes of data", 0, 256, ASK(SET_LSA, set_most, sizeof set_most), .labels = 2040},
    {"Set LSA, refused: length", 0, 256, ASK(SET_LSA, set_none, 7), BAD_LENGTH},
    {"Set LSA, refused: media disabled", 0, 256, ASK(SET_LSA, set_most, sizeof set_most), BLOCKED},
    {"Set LSA, refused: reserved byte", 0, 256, ASK(SET_LSA, set_reserved, 9), BAD_INPUT},
    {"Set LSA, refused: past the end", 0, 256, ASK(SET_LSA, set_past, sizeof set_past), BAD_INPUT},
    {"Get Poison List, no record", 0, 256, ASK(GET_POISON_LIST, no_entry, 16), .values = {32}},
    {"Get Poison List, 126 records", 126, 256, ASK(GET_POISON_LIST, all_lines, 16), .values = {32 + 126 * 16}},
    {"Get Poison List, refused: length", 0, 256, ASK(GET_POISON_LIST, all_lines, 15), BAD_LENGTH},
    {"Get Poison List, refused: unaligned", 0, 256, ASK(GET_POISON_LIST, unaligned, 16), BAD_INPUT},
    {"Get Poison List, refused: past the end", 0, 256, ASK(GET_POISON_LIST, past_end, 16), BAD_ADDRESS},
    {"Inject Poison of a new line", 0, 255, ASK(INJECT_POISON, new_line, 8), .info_room = 8, RAISES(INFO), ONE_LINE_MORE,
     .more_records = 1, .event = first_event},
    {"Inject Poison of a new line, log Info disabled", 0, 255, ASK(INJECT_POISON, new_line, 8), .info_room = 8, .disabled = true,
     ONE_LINE_MORE, .more_records = 1, .event = first_event},
    {"Inject Poison of a new line, log Info not empty", 0, 255, ASK(INJECT_POISON, new_line, 8), .info_room = 7, ONE_LINE_MORE,
     .more_records = 1, .event = second_event},
    {"Inject Poison of a new line, log Info full", 0, 255, ASK(INJECT_POISON, new_line, 8), ONE_LINE_MORE, .more_overflow = 1,
     .event = eighth_event},
    {"Inject Poison of a covered line", 1, 256, ASK(INJECT_POISON, first_line, 8), .info_room = 8},
    {"Inject Poison of a covered line, log Info full", 1, 256, ASK(INJECT_POISON, first_line, 8), .event = eighth_event},
    {"Inject Poison, refused: 256 entries held", NONE, 256, ASK(INJECT_POISON, new_line, 8), .info_room = 8, REFUSED(INJECT_POISON_LIMIT)},
    {"Inject Poison, refused: length", 0, 256, ASK(INJECT_POISON, new_line, 7), .info_room = 8, BAD_LENGTH},
    {"Inject Poison, refused: media disabled", 0, 256, ASK(INJECT_POISON, new_line, 8), .info_room = 8, BLOCKED},
    {"Inject Poison, refused: unaligned", 0, 256, ASK(INJECT_POISON, unaligned, 8), .info_room = 8, BAD_INPUT},
    {"Inject Poison, refused: outside", 0, 256, ASK(INJECT_POISON, outside, 8), .info_room = 8, BAD_ADDRESS},
    {"Clear Poison of an uncovered line", 0, 256, ASK(CLEAR_POISON, new_line, 72)},
    {"Clear Poison of an entry's only line", 1, 256, ASK(CLEAR_POISON, first_line, 72), .more_entries = -1, .more_lines = -1},
    {"Clear Poison of an entry's first line", 1, 256, ASK(CLEAR_POISON, first_line, 72), .long_by = 2, .more_lines = -1},
    {"Clear Poison of an entry's last line", 1, 256, ASK(CLEAR_POISON, third_line, 72), .long_by = 2, .more_lines = -1},
    {"Clear Poison of a line within an entry", 1, 255, ASK(CLEAR_POISON, second_line, 72), .long_by = 2, .more_entries = 1,
     .more_lines = -1},
    {"Clear Poison of a line within an entry, the part after dropped", NONE, 256, ASK(CLEAR_POISON, second_line, 72), .long_by = 2,
     .more_lines = -2, .flag_set = true},
    {"Clear Poison, refused: length", 0, 256, ASK(CLEAR_POISON, new_line, 71), BAD_LENGTH},
    {"Clear Poison, refused: media disabled", 0, 256, ASK(CLEAR_POISON, first_line, 72), BLOCKED},
    {"Clear Poison, refused: unaligned", 0, 256, ASK(CLEAR_POISON, unaligned, 72), BAD_INPUT},
    {"Clear Poison, refused: outside", 0, 256, ASK(CLEAR_POISON, outside, 72), BAD_ADDRESS},
    {"Sanitize", 0, 256, ASK(SANITIZE, none, 0), STARTS},
    {"Sanitize, refused: length", 0, 256, ASK(SANITIZE, none, 1), BAD_LENGTH},
    {"Sanitize, refused: one runs", 0, 256, ASK(SANITIZE, none, 0), .media = MEDIA_DISABLED, REFUSED(BUSY)},
    {"Sanitize, another that is due ended first", 0, 256, ASK(SANITIZE, none, 0), ENDS, STARTS},
    {"Get Timestamp, a Sanitize ended first", 0, 256, ASK(GET_TIMESTAMP, none, 0), ENDS, .values = {8}},
    {"Get Event Records, a Sanitize ended first", 0, 256, ASK(GET_EVENT_RECORDS, log_info, 1), ENDS, .values = {32}},
    {"Get LSA, 2,048 bytes, a Sanitize ended first", 0, 256, ASK(GET_LSA, get_half, 8), ENDS, .values = {2048}},
    {"Get Poison List, 126 records, a Sanitize ended first", 126, 256, ASK(GET_POISON_LIST, all_lines, 16), ENDS,
     .values = {32 + 126 * 16}},
    {"Inject Poison of a new line, a Sanitize ended first", 0, 255, ASK(INJECT_POISON, new_line, 8), ENDS, RAISES(INFO), ONE_LINE_MORE,
     .more_records = 1, .event = ninth_injected},
    {"Clear Poison of an entry's only line, a Sanitize ended first", 1, 256, ASK(CLEAR_POISON, first_line, 72), ENDS, .more_entries = -1,
     .more_lines = -1},
    {"Clear Event Records, a Sanitize ended first, refused: handle", 0, 256, ASK(CLEAR_EVENT_RECORDS, clear_oldest, 8), ENDS,
     REFUSED(INVALID_HANDLE)},
    {"command, a Sanitize ended first, refused: reply buffer too small", 0, 256, ASK(IDENTIFY, none, 0), ENDS, .missing = 1,
     REFUSED(REPLY_BUFFER_TOO_SMALL)},
    {"command, refused: reply buffer too small", 0, 256, ASK(IDENTIFY, none, 0), .missing = 1, REFUSED(REPLY_BUFFER_TOO_SMALL)},
    {"command, refused: label area too small", 0, 256, ASK(IDENTIFY, none, 0), .area_more = -1, REFUSED(REPLY_BUFFER_TOO_SMALL)},
    {"command, refused: label area too great", 0, 256, ASK(IDENTIFY, none, 0), .area_more = 1, REFUSED(REPLY_BUFFER_TOO_SMALL)},
    {"command, refused: payload over 2,048 bytes", 0, 256, ASK(IDENTIFY, too_long, sizeof too_long), BAD_LENGTH},
    {"command, refused: unknown opcode", 0, 256, .call = command, .opcode = 0x7777, .payload = none, REFUSED(UNSUPPORTED_OPCODE)},
    {"pool command, Get Event Records, none held", 0, 256, POOL(GET_EVENT_RECORDS, log_warning, 1), .values = {32}},
    {"pool command, Get Event Records, 8 held", 0, 256, POOL(GET_EVENT_RECORDS, log_info, 1), .values = {32 + 8 * 128}},
    {"pool command, Get Event Records, a Sanitize due and not ended", 0, 256, POOL(GET_EVENT_RECORDS, log_info, 1),
     .media = WORK_DUE, .values = {32 + 8 * 128}},
    {"pool command, Get Event Records, refused: log", 0, 256, POOL(GET_EVENT_RECORDS, log_five, 1), BAD_INPUT},
    {"pool command, Get Event Interrupt Policy", 0, 256, POOL(GET_EVENT_INTERRUPT_POLICY, none, 0), .values = {5}},
    {"pool command, Get Timestamp", 0, 256, POOL(GET_TIMESTAMP, none, 0), .values = {8}},
    {"pool command, Get Timestamp, a Sanitize due and not ended", 0, 256, POOL(GET_TIMESTAMP, none, 0), .media = WORK_DUE,
     .values = {8}},
    {"pool command, Get Supported Logs", 0, 256, POOL(GET_SUPPORTED_LOGS, none, 0), .values = {28}},
    {"pool command, Get Log, all of it", 0, 256, POOL(GET_LOG, pool_log, 24), .values = {28}},
    {"pool command, Get Log, refused: range", 0, 256, POOL(GET_LOG, whole_log, 24), BAD_INPUT},
    {"pool command, Identify", 0, 256, POOL(IDENTIFY, none, 0), .values = {69}},
    {"pool command, Get Poison List, no record", 0, 256, POOL(GET_POISON_LIST, no_entry, 16), .values = {32}},
    {"pool command, Get Poison List, 126 records", 126, 256, POOL(GET_POISON_LIST, all_lines, 16), .values = {32 + 126 * 16}},
    {"pool command, Get Poison List, 126 records, media disabled", 126, 256, POOL(GET_POISON_LIST, all_lines, 16),
     .media = MEDIA_DISABLED, .values = {32 + 126 * 16}},
    {"pool command, Get Poison List, refused: past the end", 0, 256, POOL(GET_POISON_LIST, past_end, 16), BAD_ADDRESS},
    {"pool command, refused: reply buffer too small", 0, 256, POOL(IDENTIFY, none, 0), .missing = 1, REFUSED(REPLY_BUFFER_TOO_SMALL)},
    {"pool command, refused: an opcode of the first mailbox", 0, 256, POOL(SANITIZE, none, 0), REFUSED(UNSUPPORTED_MAILBOX)},
    {"pool command, refused: length", 0, 256, POOL(IDENTIFY, none, 1), BAD_LENGTH},
    {"event report to a log with room", 0, 256, EVENT(LOG_INFO, 128), .values = {1}, .info_room = 1, .more_records = 1,
     .event = eighth_event},
    {"event report to an empty log", 0, 256, EVENT(LOG_WARNING, 128), .values = {1}, RAISES(WARNING), .more_records = 1},
    {"event report to an empty log, log Dynamic Capacity", 0, 256, EVENT(LOG_DYNAMIC_CAPACITY, 128), .values = {1},
     RAISES(DYNAMIC_CAPACITY), .more_records = 1},
    {"event report to an empty log, disabled", 0, 256, EVENT(LOG_FATAL, 128), .values = {1}, .disabled = true, .more_records = 1},
    {"event report to a full log", 0, 256, EVENT(LOG_INFO, 128), .values = {0}, .more_overflow = 1, .event = eighth_event},
    {"event report to a log that was full, a Sanitize ended first", 0, 256, EVENT(LOG_INFO, 128), ENDS, .values = {1}, RAISES(INFO),
     .more_records = 1, .event = ninth_event},
    {"event report, a Sanitize ended first, refused: log", 0, 256, EVENT(EVENT_LOGS, 128), ENDS, BAD_INPUT},
    {"event report, refused: length", 0, 256, EVENT(LOG_INFO, 127), .info_room = 8, BAD_LENGTH},
    {"event report, refused: log", 0, 256, EVENT(EVENT_LOGS, 128), BAD_INPUT},
    {"media report of a new line", 0, 255, MEDIA(FREE, 1, 1), .values = {1}, ONE_LINE_MORE},
    {"media report of a covered line", 1, 256, MEDIA(ENTRY, 1, 1), .values = {0, 0}},
    {"media report of two runs", 1, 254, MEDIA(ENTRY - LINE, 3, 1), .values = {2}, .more_entries = 2, .more_lines = 2},
    {"media report of two runs, one dropped", NONE, 255, MEDIA(ENTRY - LINE, 3, 1), .values = {1, 1}, .more_entries = 1,
     .more_lines = 1, .flag_set = true},
    {"media report of all lines, one run", 0, NONE, MEDIA(0, KULDUVOST_UNIT_LINES, 1), .values = {KULDUVOST_UNIT_LINES},
     .more_entries = 1, .more_lines = KULDUVOST_UNIT_LINES},
    /* The entries of one line each stand in the upper half, so the first run is the lower half and 128 of GAP less a line follow. */
    {"media report of all lines, 129 runs, one dropped", NONE, 128, MEDIA(0, KULDUVOST_UNIT_LINES, 1),
     .values = {ENTRY / LINE + 127 * (GAP / LINE - 1), GAP / LINE - 1}, .more_entries = 128,
     .more_lines = ENTRY / LINE + 127 * (GAP / LINE - 1), .flag_set = true},
    {"media report of a new line, dropped", NONE, 256, MEDIA(FREE, 1, 1), .values = {0, 1}, .flag_set = true},
    {"media report of a new line, a Sanitize ended first", 0, 255, MEDIA(FREE, 1, 1), ENDS, .values = {1}, ONE_LINE_MORE},
    {"media report, a Sanitize ended first, refused: type", 0, 256, MEDIA(FREE, 1, 3), ENDS, BAD_INPUT},
    {"media report, refused: type", 0, 256, MEDIA(FREE, 1, 3), BAD_INPUT},
    {"media report, refused: no line", 0, 256, MEDIA(FREE, 0, 1), BAD_INPUT},
    {"media report, refused: unaligned", 0, 256, MEDIA(FREE + 1, 1, 1), BAD_INPUT},
    {"media report, refused: past the end", 0, 256, MEDIA(LINE, KULDUVOST_UNIT_LINES, 1), BAD_ADDRESS},
    {"line test, Clean", 0, 256, TEST(FREE), .values = {KULDUVOST_CLEAN, 0}},
    {"line test, Damaged", 1, 256, TEST(ENTRY), .values = {KULDUVOST_DAMAGED, 1}},
    {"line test, Unknown", 0, 256, TEST(FREE), .flag_before = true, .values = {KULDUVOST_UNKNOWN, 0}},
    {"line test, Disabled", 0, 256, TEST(ENTRY), .media = MEDIA_DISABLED, .values = {KULDUVOST_DISABLED, 0}},
    {"line test, refused: unaligned", 0, 256, TEST(FREE + 1), BAD_INPUT, .values = {KULDUVOST_UNKNOWN, 0}},
    {"line test, refused: outside", 0, 256, TEST(END), BAD_ADDRESS, .values = {KULDUVOST_UNKNOWN, 0}},
    {"event status", 0, 256, .call = event_status, .values = {1 << KULDUVOST_LOG_INFO | 1 << KULDUVOST_LOG_FAILURE, 2, 2}},
    {"damage total", 0, 256, .call = damage_total, .values = {AS_HELD}},
    {"device size", 0, 256, .call = device_size, .values = {KULDUVOST_DEVICE_SIZE}},
};
enum { ROWS = sizeof rows / sizeof *rows };

/* ---- A device before and after the call */
struct held {
    uint64_t entries, lines, records, overflow;
    bool flag, disabled;
    uint8_t event[KULDUVOST_EVENT_RECORD_SIZE]; /* the last of log Info */
};

static uint64_t number(const uint8_t *from, size_t bytes) { return bytes == 0 ? 0 : from[0] | number(from + 1, bytes - 1) << 8; }

/* Byte i of the area before a call: not zero, which is what a Set LSA writes here. */
static uint8_t label_before(size_t i) { return (uint8_t)(i % 255 + 1); }

/* Whether the area, the byte after it too, holds the data of the row's Set LSA in their place and is otherwise as it was. */
static bool labels_as_expected(const struct row *row) {
    uint64_t from = row->labels == 0 ? 0 : number(row->payload, 4);
    for (size_t i = 0; i < sizeof area; i++) {
        if (area[i] != (from <= i && i < from + row->labels ? 0 : label_before(i))) {
            return false;
        }
    }
    return true;
}

static size_t ask_at(uint64_t time, uint16_t opcode, const uint8_t *payload, size_t length) {
    return kulduvost_command(&device, opcode, payload, length, time, area, KULDUVOST_LABEL_AREA_SIZE, reply, sizeof reply).length;
}

static size_t ask(uint16_t opcode, const uint8_t *payload, size_t length) { return ask_at(TIME, opcode, payload, length); }

/* By its replies: the records of its five logs and what they counted as overflow, and the entries, read on from the end of the last where
 * there are more. */
static struct held held(void) {
    struct held all = {.entries = 0};
    uint64_t from = 0;
    for (uint8_t log = 0; log < KULDUVOST_EVENT_LOGS; log++) {
        size_t records = (ask(KULDUVOST_GET_EVENT_RECORDS, &log, 1) - 32) / KULDUVOST_EVENT_RECORD_SIZE;
        all.records += records;
        all.overflow += number(reply + 2, 2);
        if (log == KULDUVOST_LOG_INFO && records > 0) {
            memcpy(all.event, reply + 32 + (records - 1) * KULDUVOST_EVENT_RECORD_SIZE, KULDUVOST_EVENT_RECORD_SIZE);
        }
    }
    do {
        const uint8_t rest[16] = {BYTES(from), BYTES((END - from) / LINE)};
        ask(KULDUVOST_GET_POISON_LIST, rest, sizeof rest);
        for (size_t i = 0; i < number(reply + 10, 2); i++) {
            const uint8_t *entry = reply + 32 + 16 * i;
            all.entries++;
            all.lines += number(entry + 8, 4);
            from = (number(entry, 8) / LINE + number(entry + 8, 4)) * LINE;
        }
    } while ((reply[0] & 1) != 0);
    all.flag = (reply[0] & 2) != 0;
    all.disabled = kulduvost_line_test(&device, 0).answer == KULDUVOST_DISABLED;
    return all;
}

/* The first entry at ENTRY, then upwards, and on from address 0. */
static uint64_t entry_at(int i) { return (ENTRY + (uint64_t)i * GAP) % END; }

static void fill(int entries, uint32_t lines) {
    for (int i = 0; i < entries; i++) {
        kulduvost_media_report(&device, TIME, entry_at(i), lines, 1);
    }
}

/* The overflow flag stays when the entries that filled the list are cleared. */
static void set_flag(void) {
    fill(KULDUVOST_POISON_ENTRIES, 1);
    kulduvost_media_report(&device, TIME, FREE, 1, 1);
    for (int i = 0; i < KULDUVOST_POISON_ENTRIES; i++) {
        const uint8_t clear[72] = {BYTES(entry_at(i))};
        ask(KULDUVOST_CLEAR_POISON, clear, sizeof clear);
    }
}

static void fill_log(uint8_t log, int records) {
    for (int i = 0; i < records; i++) {
        kulduvost_event_report(&device, TIME, log, record, sizeof record);
    }
}

/* The clock set; the entries; eight records in logs Info, with handles 1 to 8, or as many fewer as it has room for, and Failure, which has
 * dropped a ninth; a Sanitize started where the row has one. For make, memory all zero. The label area as `label_before` has it. */
static void prepare(const struct row *row, int entries) {
    memset(&device, 0, sizeof device);
    for (size_t i = 0; i < sizeof area; i++) {
        area[i] = label_before(i);
    }
    told = (struct answer){.code = UINT16_MAX}; /* no call's answer */
    if (row->call == make) {
        return;
    }
    kulduvost_make(&device, 1, 0);
    ask_at(SET_AT, KULDUVOST_SET_TIMESTAMP, timestamp, sizeof timestamp);
    if (!row->disabled) {
        ask(KULDUVOST_SET_EVENT_INTERRUPT_POLICY, enabling, sizeof enabling);
    }
    if (row->flag_before) {
        set_flag();
    }
    fill(entries, 1 + row->long_by);
    fill_log(KULDUVOST_LOG_INFO, KULDUVOST_EVENT_LOG_RECORDS - row->info_room);
    fill_log(KULDUVOST_LOG_FAILURE, KULDUVOST_EVENT_LOG_RECORDS + 1);
    if (row->media != MEDIA_ENABLED) {
        ask(KULDUVOST_SANITIZE, none, 0);
    }
}

/* Whether the call answered, and device and label area hold after it, what the row says of so many entries. */
static bool as_expected(const struct row *row, int entries) {
    uint64_t lines = (uint64_t)entries * (1 + row->long_by);
    bool ended = row->media == WORK_DUE && row->call != pool_command;
    bool no_logs = row->call == make || ended; /* none made before, or all emptied by the call */
    int records = no_logs ? 0 : 2 * KULDUVOST_EVENT_LOG_RECORDS - row->info_room, overflow = no_logs ? 0 : 1;
    bool disabled = (row->media != MEDIA_ENABLED && !ended) || row->code == KULDUVOST_STARTED;
    struct held after = held();
    bool same = told.code == row->code && told.vector == row->vector && labels_as_expected(row) && after.disabled == disabled;
    for (size_t i = 0; i < 3; i++) {
        same = same && told.values[i] == (row->values[i] == AS_HELD ? lines : row->values[i]);
    }
    same = same && (row->event == NULL || memcmp(after.event, row->event, sizeof after.event) == 0);
    return same && after.entries == (uint64_t)(entries + row->more_entries) && after.lines == lines + (uint64_t)row->more_lines &&
           after.records == (uint64_t)(records + row->more_records) && after.overflow == (uint64_t)(overflow + row->more_overflow) &&
           after.flag == (row->flag_before || row->flag_set);
}

/* ---- Tests and table */
static int passed, failed;

/* A failure is told beside the table, not in it. */
static void expect(bool holds, const char *name, int entries, const char *what) {
    passed += holds ? 1 : 0;
    failed += holds ? 0 : 1;
    if (!holds) {
        fprintf(stderr, "fail: %s, %d entries: %s\n", name, entries, what);
    }
}

/* The call is made once before it is measured: a program's first call of memcpy may run the dynamic linker, on the caller's stack. */
static void measure(const struct row *row, int entries) {
    size_t deepest = 0;
    bool right = true;
    if (entries == NONE) {
        printf(" - |");
        return;
    }
    now = row;
    prepare(row, entries);
    row->call();
    for (size_t i = 0; i < sizeof patterns; i++) {
        prepare(row, entries);
        size_t depth = depth_of(row->call, patterns[i]);
        deepest = depth > deepest ? depth : deepest;
        right = as_expected(row, entries) && right;
    }
    printf(" %zu |", deepest);
    expect(right, row->name, entries, "another answer, or another device or label area after the call, than expected");
    expect(deepest <= LIMIT, row->name, entries, "more stack than the management core has");
}

static void print_name(const struct row *row) {
    printf("| %s", row->name);
    if (row->many != NONE && (row->few > 0 || row->many != KULDUVOST_POISON_ENTRIES)) {
        row->few == NONE ? printf(" (%d entries)", row->many) : printf(" (%d and %d entries)", row->few, row->many);
    }
    printf(" |");
}

/* The measuring itself, by a call that is known to write a byte some way down. */
enum { DEEP = 20000 };
static int deep(void) {
    uint8_t room[DEEP];
    room[0] = 1;
    __asm__ volatile("" : : "r"(room) : "memory");
    return 0;
}
CALL(call_deep, int, deep, (), .values = {(uint64_t)a})

int main(void) {
    printf("| Call | 0 entries | 256 entries |\n|---|---|---|\n");
    for (size_t i = 0; i < ROWS; i++) {
        print_name(&rows[i]);
        measure(&rows[i], rows[i].few);
        measure(&rows[i], rows[i].many);
        printf("\n");
    }
    for (size_t i = 0; i < sizeof patterns; i++) {
        size_t depth = depth_of(call_deep, patterns[i]);
        expect(depth > DEEP && depth < DEEP + 100, "the measuring", 0, "a byte written that deep was not seen there");
    }
    printf("%d passed, %d failed\n", passed, failed);
    return failed == 0 ? 0 : 1;
}
