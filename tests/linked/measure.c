/*
 * measure              how long each call of the library takes, as a Markdown table: nanoseconds, the least of many runs (stack.c has
 *                      the stack)
 * measure KIND TIMES   makes the calls of one kind that many times, for callgrind to count; KIND is a name of the table
 *
 * Beside the line test stands the same test in plain C, over the same arrays of the same device. For that alone this program knows where
 * the poison list and the media flag lie in a device (crates/embed/proofs/Header.antt); a caller has no business there.
 */
#define _POSIX_C_SOURCE 199309L
#include "kulduvost.h"
#include <stdio.h>
#include <stdlib.h>
#include <string.h>
#include <time.h>

enum { ROUNDS = 15 };

/* Entries are of one line each and stand this many bytes apart, the first one at 0. */
#define GAP ((uint64_t)KULDUVOST_LINE_SIZE * KULDUVOST_UNIT_LINES / KULDUVOST_POISON_ENTRIES)

static kulduvost_device *device;        /* on which the calls are made */
static kulduvost_device before;         /* what it is put back to before each run */
static uint8_t payload[KULDUVOST_MAILBOX_SIZE], reply[KULDUVOST_MAILBOX_SIZE], record[KULDUVOST_EVENT_RECORD_SIZE];
static uint8_t labels[KULDUVOST_LABEL_AREA_SIZE];
static volatile uint64_t sink;          /* so that no answer is thrown away */

/* ---- The line test in plain C */
static const uint8_t *list_of(const kulduvost_device *d) { return (const uint8_t *)d + 5320; }
static const uint32_t *starts_of(const kulduvost_device *d) { return (const uint32_t *)(const void *)list_of(d); }
static const uint32_t *lengths_of(const kulduvost_device *d) { return starts_of(d) + 256; }
static const uint8_t *types_of(const kulduvost_device *d) { return list_of(d) + 2048; }
static size_t count_of(const kulduvost_device *d) { return *(const size_t *)(const void *)(list_of(d) + 2304); }
static bool overflow_of(const kulduvost_device *d) { return list_of(d)[2312] != 0; }
static bool disabled_of(const kulduvost_device *d) { return *((const uint8_t *)d + 7648) != 0; }

static kulduvost_line_answer uncovered(const kulduvost_device *d) {
    return (kulduvost_line_answer){KULDUVOST_SUCCESS, overflow_of(d) ? KULDUVOST_UNKNOWN : KULDUVOST_CLEAN, 0};
}

static kulduvost_line_answer covered(const kulduvost_device *d, size_t i) {
    return (kulduvost_line_answer){KULDUVOST_SUCCESS, KULDUVOST_DAMAGED, types_of(d)[i]};
}

static kulduvost_line_answer refused(uint16_t code) { return (kulduvost_line_answer){code, KULDUVOST_UNKNOWN, 0}; }

static kulduvost_line_answer while_disabled(void) { return (kulduvost_line_answer){KULDUVOST_SUCCESS, KULDUVOST_DISABLED, 0}; }

/* binary search with an if */
__attribute__((noinline)) static kulduvost_line_answer plain_if(const kulduvost_device *d, uint64_t address) {
    if (address % KULDUVOST_LINE_SIZE != 0) {
        return refused(KULDUVOST_INVALID_INPUT);
    }
    if (address / KULDUVOST_LINE_SIZE >= KULDUVOST_UNIT_LINES) {
        return refused(KULDUVOST_INVALID_PHYSICAL_ADDRESS);
    }
    if (disabled_of(d)) {
        return while_disabled();
    }
    uint32_t line = (uint32_t)(address / KULDUVOST_LINE_SIZE);
    size_t low = 0, high = count_of(d);
    while (low < high) {
        size_t middle = low + (high - low) / 2;
        if (starts_of(d)[middle] <= line) {
            low = middle + 1;
        } else {
            high = middle;
        }
    }
    bool found = low > 0 && line - starts_of(d)[low - 1] < lengths_of(d)[low - 1];
    return found ? covered(d, low - 1) : uncovered(d);
}

/* the half taken by arithmetic, without a jump on what was compared */
__attribute__((noinline)) static kulduvost_line_answer plain_arithmetic(const kulduvost_device *d, uint64_t address) {
    if (address % KULDUVOST_LINE_SIZE != 0) {
        return refused(KULDUVOST_INVALID_INPUT);
    }
    if (address / KULDUVOST_LINE_SIZE >= KULDUVOST_UNIT_LINES) {
        return refused(KULDUVOST_INVALID_PHYSICAL_ADDRESS);
    }
    if (disabled_of(d)) {
        return while_disabled();
    }
    uint32_t line = (uint32_t)(address / KULDUVOST_LINE_SIZE);
    size_t at = 0, size = count_of(d);
    while (size > 1) {
        size_t half = size / 2;
        size_t upper = starts_of(d)[at + half] <= line;
        __asm__("" : "+r"(upper)); /* clang would make it a jump */
        at += half * upper;
        size -= half;
    }
    bool found = size > 0 && line >= starts_of(d)[at] && line - starts_of(d)[at] < lengths_of(d)[at];
    return found ? covered(d, at) : uncovered(d);
}

/* ---- The calls */
static void put(uint8_t *to, uint64_t number, size_t bytes) {
    for (size_t i = 0; i < bytes; i++) {
        to[i] = (uint8_t)(number >> 8 * i);
    }
}

/* The caller's time of a call; of one that ends a Sanitize, which was started at that time, 4 seconds more. */
enum { TIME = 1000 };
static uint64_t now_is = TIME;

static void command(uint16_t opcode, size_t length) {
    sink = kulduvost_command(device, opcode, payload, length, now_is, labels, sizeof labels, reply, sizeof reply).length;
}

/* the second mailbox (document 02, W-208) */
static void pool_command(uint16_t opcode, size_t length) {
    sink = kulduvost_pool_command(device, opcode, payload, length, now_is, reply, sizeof reply).length;
}

/* A random line of the device, never the same sequence twice: a repeated one would be learned by the processor's branch prediction. The
 * compiler is kept from knowing that the address is aligned, which the plain tests would gain by. */
static uint64_t random_line(void) {
    static uint64_t state = 12345;
    state = state * 6364136223846793005u + 1442695040888963407u;
    uint64_t address = (state >> 42) * KULDUVOST_LINE_SIZE;
    __asm__ volatile("" : "+r"(address));
    return address;
}

static uint64_t random_entry(void) { return random_line() / GAP * GAP; }
static uint64_t random_between(void) { return random_line() | KULDUVOST_LINE_SIZE; }

static void nothing(void) { sink = random_line(); }
static void line_test(void) { sink = kulduvost_line_test(device, random_line()).answer; }
static void line_test_if(void) { sink = plain_if(device, random_line()).answer; }
static void line_test_arithmetic(void) { sink = plain_arithmetic(device, random_line()).answer; }
static void event_status(void) { sink = kulduvost_event_status(device).bits; }
static void damage_total(void) { sink = kulduvost_damage_total(device); }
static void get_timestamp(void) { command(KULDUVOST_GET_TIMESTAMP, 0); }
static void set_timestamp(void) { command(KULDUVOST_SET_TIMESTAMP, 8); }
static void get_policy(void) { command(KULDUVOST_GET_EVENT_INTERRUPT_POLICY, 0); }
static void set_policy(void) { command(KULDUVOST_SET_EVENT_INTERRUPT_POLICY, 5); }
static void identify(void) { command(KULDUVOST_IDENTIFY, 0); }
static void get_supported_logs(void) { command(KULDUVOST_GET_SUPPORTED_LOGS, 0); }
static void unknown_opcode(void) { command(0x7777, 0); }

static void get_log(void) {
    static const uint8_t whole[24] = {0x0d, 0xa9, 0xc0, 0xb5, 0xbf, 0x41, 0x4b, 0x78, 0x8f, 0x79, 0x96, 0xb1,
                                      0x62, 0x3b, 0x3f, 0x17, 0,    0,    0,    0,    60,   0,    0,    0};
    memcpy(payload, whole, sizeof whole);
    command(KULDUVOST_GET_LOG, sizeof whole);
}

/* the longest that there are, from the area's first byte on */
static void get_labels(void) {
    put(payload, 0, 4);
    put(payload + 4, KULDUVOST_MAILBOX_SIZE, 4);
    command(KULDUVOST_GET_LSA, 8);
}

static void set_labels(void) {
    put(payload, 0, 8);
    command(KULDUVOST_SET_LSA, KULDUVOST_MAILBOX_SIZE);
}

static void of_all_lines(void (*ask)(uint16_t, size_t)) {
    put(payload, 0, 8);
    put(payload + 8, KULDUVOST_UNIT_LINES, 8);
    ask(KULDUVOST_GET_POISON_LIST, 16);
}
static void get_poison_list(void) { of_all_lines(command); }
static void pool_poison_list(void) { of_all_lines(pool_command); }

static void inject(uint64_t address) {
    put(payload, address, 8);
    command(KULDUVOST_INJECT_POISON, 8);
}
static void inject_covered(void) { inject(random_entry()); }
static void inject_uncovered(void) { inject(random_between()); }
static void inject_info_empty(void) { inject(random_between()); } /* `prepare` leaves log Info empty for it */

/* of a line between two entries, so that the list is again as it was; its event is counted as overflow, log Info being full */
static void inject_and_clear(void) {
    inject_uncovered();
    command(KULDUVOST_CLEAR_POISON, 72);
}

static void of_log_info(void (*ask)(uint16_t, size_t)) {
    payload[0] = KULDUVOST_LOG_INFO;
    ask(KULDUVOST_GET_EVENT_RECORDS, 1);
}
static void get_event_records(void) { of_log_info(command); }
static void pool_event_records(void) { of_log_info(pool_command); }
static void pool_timestamp(void) { pool_command(KULDUVOST_GET_TIMESTAMP, 0); }
static void pool_refused(void) { pool_command(KULDUVOST_SANITIZE, 0); } /* an opcode of the first mailbox */

/* of the oldest record of log Info, which has handle 1 */
static void clear_event_records(void) {
    static const uint8_t oldest[8] = {KULDUVOST_LOG_INFO, 0, 1, 0, 0, 0, 1, 0};
    memcpy(payload, oldest, sizeof oldest);
    command(KULDUVOST_CLEAR_EVENT_RECORDS, sizeof oldest);
}

static void event_report(uint8_t log) { sink = kulduvost_event_report(device, now_is, log, record, sizeof record).stored; }
static void event_full(void) { event_report(KULDUVOST_LOG_INFO); }
static void event_room(void) { event_report(KULDUVOST_LOG_WARNING); }

static void media_report(uint64_t address) { sink = kulduvost_media_report(device, now_is, address, 1, 1).stored; }
static void media_covered(void) { media_report(random_entry()); }
static void media_uncovered(void) { media_report(random_between()); }
static void make(void) { sink = kulduvost_make(device, 1, 0); }

static void sanitize(void) { command(KULDUVOST_SANITIZE, 0); }
static void ending(void (*call)(void)) {
    now_is = TIME + UINT64_C(4000000000);
    call();
    now_is = TIME;
}
static void ending_get_timestamp(void) { ending(get_timestamp); }
static void ending_inject(void) { ending(inject_uncovered); }
static void ending_event(void) { ending(event_full); }
static void ending_media(void) { ending(media_covered); }

/* ---- The kinds: a call, the entries held before it, and how many calls can be made before the device must be put back. Log Info is full
 * before a call where the kind does not say that it is empty. */
enum { MANY = 4096, EMPTY = UINT16_MAX /* entries: no device yet, all zero */, SANITIZED = 1 << 16 /* and a Sanitize runs */ };

static const struct kind {
    const char *name;
    uint32_t entries;
    uint32_t calls;
    void (*call)(void);
} kinds[] = {
    {"the loop alone", 0, MANY, nothing},
    {"line test, 0 entries", 0, MANY, line_test},
    {"plain C with `if`, 0 entries", 0, MANY, line_test_if},
    {"plain C without a jump, 0 entries", 0, MANY, line_test_arithmetic},
    {"line test, 1 entry", 1, MANY, line_test},
    {"plain C with `if`, 1 entry", 1, MANY, line_test_if},
    {"plain C without a jump, 1 entry", 1, MANY, line_test_arithmetic},
    {"line test, 256 entries", 256, MANY, line_test},
    {"plain C with `if`, 256 entries", 256, MANY, line_test_if},
    {"plain C without a jump, 256 entries", 256, MANY, line_test_arithmetic},
    {"event status", 255, MANY, event_status},
    {"damage total, 0 entries", 0, MANY, damage_total},
    {"damage total, 256 entries", 256, MANY, damage_total},
    {"Get Timestamp", 255, MANY, get_timestamp},
    {"Set Timestamp", 255, MANY, set_timestamp},
    {"Get Event Interrupt Policy", 255, MANY, get_policy},
    {"Set Event Interrupt Policy", 255, MANY, set_policy},
    {"Identify", 255, MANY, identify},
    {"Get Supported Logs", 255, MANY, get_supported_logs},
    {"Get Log, all of it", 255, MANY, get_log},
    {"Get LSA, 2,048 bytes", 255, MANY, get_labels},
    {"Set LSA, 2,040 bytes of data", 255, MANY, set_labels},
    {"unknown opcode", 255, MANY, unknown_opcode},
    {"Get Poison List, 126 records", 126, MANY, get_poison_list},
    {"Inject Poison of a new line, log Info empty, 0 entries", 0, 1, inject_info_empty},
    {"Inject Poison of a new line, log Info empty, 255 entries", 255, 1, inject_info_empty},
    {"Inject Poison of a new line, log Info full, 0 entries", 0, 1, inject_uncovered},
    {"Inject Poison of a new line, log Info full, 255 entries", 255, 1, inject_uncovered},
    {"Inject Poison of a covered line, 256 entries", 256, MANY, inject_covered},
    {"Inject and Clear Poison (two calls), 0 entries", 0, MANY, inject_and_clear},
    {"Inject and Clear Poison (two calls), 255 entries", 255, MANY, inject_and_clear},
    {"Get Event Records, 8 held", 255, MANY, get_event_records},
    {"Clear Event Records, the oldest of 8", 255, 1, clear_event_records},
    {"event report to a full log", 255, MANY, event_full},
    {"event report to an empty log", 255, 1, event_room},
    {"event report to a log with room", 255, KULDUVOST_EVENT_LOG_RECORDS, event_room},
    {"media report of a covered line, 256 entries", 256, MANY, media_covered},
    {"media report of a new line, 0 entries", 0, 1, media_uncovered},
    {"media report of a new line, 255 entries", 255, 1, media_uncovered},
    {"media report, dropped", 256, MANY, media_uncovered},
    {"Sanitize", 255, 1, sanitize},
    {"Sanitize while one runs", 255 | SANITIZED, MANY, sanitize},
    {"line test while media is disabled, 256 entries", 256 | SANITIZED, MANY, line_test},
    {"Get Timestamp while media is disabled", 255 | SANITIZED, MANY, get_timestamp},
    {"Get Timestamp that ends a Sanitize", 255 | SANITIZED, 1, ending_get_timestamp},
    {"Inject Poison of a new line that ends a Sanitize, 255 entries", 255 | SANITIZED, 1, ending_inject},
    {"event report that ends a Sanitize", 255 | SANITIZED, 1, ending_event},
    {"media report of a covered line that ends a Sanitize, 256 entries", 256 | SANITIZED, 1, ending_media},
    {"pool command, Get Timestamp", 255, MANY, pool_timestamp},
    {"pool command, Get Poison List, 126 records", 126, MANY, pool_poison_list},
    {"pool command, Get Event Records, 8 held", 255, MANY, pool_event_records},
    {"pool command, refused: an opcode of the first mailbox", 255, MANY, pool_refused},
    {"make", EMPTY, 1, make},
};
enum { KINDS = sizeof kinds / sizeof *kinds };

static bool same(kulduvost_line_answer a, kulduvost_line_answer b) { return a.code == b.code && a.answer == b.answer && a.type == b.type; }

/* The plain tests answer what the library answers: otherwise they read other arrays, and their times tell nothing. */
static void answers_agree(void) {
    for (int i = 0; i < MANY; i++) {
        uint64_t address = i % 2 == 0 ? random_entry() : random_line();
        kulduvost_line_answer told = kulduvost_line_test(device, address);
        if (!same(told, plain_if(device, address)) || !same(told, plain_arithmetic(device, address))) {
            fputs("measure: the poison list or the media flag lies elsewhere in a device\n", stderr);
            exit(1);
        }
    }
}

/* The entries; the interrupts of all logs enabled; eight records in log Info, the first with handle 1, or none; none in the other logs; a
 * Sanitize started last. */
static void prepare(const struct kind *kind) {
    int records = kind->call == inject_info_empty ? 0 : KULDUVOST_EVENT_LOG_RECORDS;
    uint32_t entries = kind->entries % SANITIZED;
    memset(device, 0, sizeof *device);
    if (kind->entries != EMPTY) {
        kulduvost_make(device, 1, 0);
        for (uint32_t i = 0; i < entries; i++) {
            media_report(i * GAP);
        }
        memset(payload, 1, KULDUVOST_EVENT_LOGS);
        set_policy();
        for (int i = 0; i < records; i++) {
            event_report(KULDUVOST_LOG_INFO);
        }
        answers_agree();
        if (kind->entries != entries) {
            sanitize();
            answers_agree();
        }
    }
    memcpy(&before, device, sizeof before);
    memset(payload, 0, sizeof payload);
}

static void put_back(void) { memcpy(device, &before, sizeof *device); }

/* ---- Time: the least of many runs, each from the same device, without what the clock itself takes */
static double now(void) {
    struct timespec t;
    clock_gettime(CLOCK_MONOTONIC, &t);
    return (double)t.tv_sec * 1e9 + (double)t.tv_nsec;
}

static double clock_alone(void) {
    double least = 1e9;
    for (int i = 0; i < 10000; i++) {
        double from = now(), took = now() - from;
        least = took < least ? took : least;
    }
    return least;
}

static double least_of_runs(const struct kind *kind, int runs, double overhead) {
    double least = 1e18;
    for (int run = 0; run < runs; run++) {
        put_back();
        double from = now();
        for (uint32_t i = 0; i < kind->calls; i++) {
            kind->call();
        }
        double took = (now() - from - overhead) / kind->calls;
        least = took < least ? took : least;
    }
    return least;
}

/* ---- The two ways to run it */
/* All kinds in turn, several rounds: what else the machine does meanwhile hits all of them alike. */
static void table(void) {
    static double least[KINDS];
    double overhead = clock_alone();
    for (int round = 0; round < ROUNDS; round++) {
        for (size_t k = 0; k < KINDS; k++) {
            prepare(&kinds[k]);
            double took = least_of_runs(&kinds[k], kinds[k].calls == MANY ? 10 : 2000, overhead);
            least[k] = round == 0 || took < least[k] ? took : least[k];
        }
    }
    printf("| Call | ns |\n|---|---|\n");
    for (size_t k = 0; k < KINDS; k++) {
        printf("| %s | %.1f |\n", kinds[k].name, least[k]);
    }
}

static int one_kind(const char *name, unsigned long times) {
    for (size_t k = 0; k < KINDS; k++) {
        if (strcmp(kinds[k].name, name) == 0) {
            prepare(&kinds[k]);
            for (unsigned long n = 0; n < times; n++) {
                if (n % kinds[k].calls == 0) {
                    put_back();
                }
                kinds[k].call();
            }
            return 0;
        }
    }
    fprintf(stderr, "measure: there is no kind `%s`\n", name);
    return 1;
}

int main(int count, char **words) {
    device = calloc(1, sizeof *device);
    if (device == NULL || (count != 1 && count != 3)) {
        fputs("measure [KIND TIMES]\n", stderr);
        return 2;
    }
    if (count == 3) {
        return one_kind(words[1], strtoul(words[2], NULL, 10));
    }
    table();
    return 0;
}
