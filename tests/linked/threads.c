/*
 * threads: a thousand devices on several threads, one thread a device at a time. Every device has a seeded mix of calls of its own, made
 * in turns; from turn to turn it goes to another thread, with its label area. What each device answered (a checksum over every answer,
 * reply byte and byte of its area) must be what the same calls answer that are made one by one on one thread: devices share nothing
 * (kulduvost.h).
 * The last line is `N passed, M failed`, counting devices; exit status 1 if M is not 0.
 */
#define _POSIX_C_SOURCE 200112L
#include "kulduvost.h"
#include <pthread.h>
#include <stdio.h>
#include <stdlib.h>
#include <string.h>

#ifndef TURNS
#define TURNS 8
#endif
enum { DEVICES = 1000, THREADS = 4, CALLS = 40 /* in a turn */ };

struct tested {
    kulduvost_device device;
    uint8_t labels[KULDUVOST_LABEL_AREA_SIZE];
    uint8_t reply[KULDUVOST_MAILBOX_SIZE];
    uint64_t random;
    uint64_t checksum;
};

/* ---- Seeded numbers, and the checksum */
/* splitmix64 */
static uint64_t next(struct tested *tested) {
    uint64_t n = tested->random += 0x9e3779b97f4a7c15u;
    n = (n ^ n >> 30) * 0xbf58476d1ce4e5b9u;
    n = (n ^ n >> 27) * 0x94d049bb133111ebu;
    return n ^ n >> 31;
}

static uint64_t below(struct tested *tested, uint64_t bound) { return next(tested) % bound; }

/* FNV-1a */
static void add_bytes(struct tested *tested, const uint8_t *bytes, size_t length) {
    for (size_t i = 0; i < length; i++) {
        tested->checksum = (tested->checksum ^ bytes[i]) * 0x100000001b3u;
    }
}

static void add(struct tested *tested, uint64_t number) {
    uint8_t bytes[8];
    for (size_t i = 0; i < sizeof bytes; i++) {
        bytes[i] = (uint8_t)(number >> 8 * i);
    }
    add_bytes(tested, bytes, sizeof bytes);
}

static void put(uint8_t *to, uint64_t number, size_t bytes) {
    for (size_t i = 0; i < bytes; i++) {
        to[i] = (uint8_t)(number >> 8 * i);
    }
}

/* ---- The calls. Few lines, so that entries are met again and lists fill up; now and then an address that is refused. */
static uint64_t any_address(struct tested *tested) {
    return below(tested, 50) == 0 ? next(tested) : below(tested, 1200) * KULDUVOST_LINE_SIZE;
}

static void add_reply(struct tested *tested, uint16_t code, size_t length) {
    add(tested, code);
    add(tested, length);
    add_bytes(tested, tested->reply, length);
}

static void command(struct tested *tested, uint16_t opcode, const uint8_t *payload, size_t length) {
    kulduvost_command_answer done = kulduvost_command(&tested->device, opcode, payload, length, next(tested), tested->labels,
                                                      sizeof tested->labels, tested->reply, sizeof tested->reply);
    add(tested, done.vector);
    add_reply(tested, done.code, done.length);
}

static void poison_command(struct tested *tested) {
    uint8_t payload[72] = {0};
    put(payload, any_address(tested), 8);
    if (below(tested, 2) == 0) {
        command(tested, KULDUVOST_INJECT_POISON, payload, 8);
    } else {
        command(tested, KULDUVOST_CLEAR_POISON, payload, 72);
    }
}

static void poison_list(struct tested *tested) {
    uint8_t payload[16];
    put(payload, any_address(tested), 8);
    put(payload + 8, below(tested, 3000), 8);
    command(tested, KULDUVOST_GET_POISON_LIST, payload, sizeof payload);
}

/* Clear All, or some of the oldest records by the handles that the reply gives (bytes 20 and 21 of a record), now and then a wrong one. */
static void event_command(struct tested *tested) {
    uint8_t payload[12] = {(uint8_t)below(tested, 6), (uint8_t)below(tested, 2)};
    command(tested, KULDUVOST_GET_EVENT_RECORDS, payload, 1);
    size_t handles = payload[1] == 1 ? 0 : below(tested, 4);
    payload[2] = (uint8_t)handles;
    for (size_t i = 0; i < handles; i++) {
        memcpy(payload + 6 + 2 * i, tested->reply + 32 + KULDUVOST_EVENT_RECORD_SIZE * i + 20, 2);
        payload[6 + 2 * i] = (uint8_t)(payload[6 + 2 * i] + (below(tested, 9) == 0));
    }
    command(tested, KULDUVOST_CLEAR_EVENT_RECORDS, payload, 6 + 2 * handles);
}

/* Some data at any place of the area, then a Get of any range; some of both are past its end, and some Gets are too long. */
static void label_command(struct tested *tested) {
    uint8_t payload[8 + 200];
    size_t data = below(tested, sizeof payload - 7);
    put(payload, below(tested, KULDUVOST_LABEL_AREA_SIZE), 8);
    memset(payload + 8, (int)below(tested, 256), data);
    command(tested, KULDUVOST_SET_LSA, payload, 8 + data);
    put(payload, below(tested, KULDUVOST_LABEL_AREA_SIZE), 4);
    put(payload + 4, below(tested, KULDUVOST_MAILBOX_SIZE + 100), 4);
    command(tested, KULDUVOST_GET_LSA, payload, 8);
}

static void other_command(struct tested *tested) {
    static const uint16_t opcodes[] = {KULDUVOST_GET_EVENT_INTERRUPT_POLICY, KULDUVOST_GET_TIMESTAMP, KULDUVOST_GET_SUPPORTED_LOGS,
                                       KULDUVOST_IDENTIFY, 0x7777};
    uint8_t payload[8];
    put(payload, next(tested), sizeof payload);
    command(tested, KULDUVOST_SET_TIMESTAMP, payload, 8);
    command(tested, KULDUVOST_SET_EVENT_INTERRUPT_POLICY, payload, 4 + below(tested, 2));
    command(tested, opcodes[below(tested, sizeof opcodes / sizeof *opcodes)], payload, 0);
}

/* What the pool manager looks at through its own mailbox (document 02, W-208), on the thread that has the device: a list, a log, what needs
 * no payload, and an opcode that is refused there. */
static void pool_command(struct tested *tested) {
    static const struct {
        uint16_t opcode;
        size_t length;
    } asked[] = {{KULDUVOST_GET_POISON_LIST, 16}, {KULDUVOST_GET_EVENT_RECORDS, 1}, {KULDUVOST_GET_EVENT_INTERRUPT_POLICY, 0},
                 {KULDUVOST_GET_TIMESTAMP, 0},    {KULDUVOST_IDENTIFY, 0},          {KULDUVOST_SANITIZE, 0}};
    size_t which = below(tested, sizeof asked / sizeof *asked);
    uint8_t payload[16];
    put(payload, asked[which].length == 1 ? below(tested, 6) : any_address(tested), 8);
    put(payload + 8, below(tested, 3000), 8);
    kulduvost_pool_answer done = kulduvost_pool_command(&tested->device, asked[which].opcode, payload, asked[which].length, next(tested),
                                                        tested->reply, sizeof tested->reply);
    add_reply(tested, done.code, done.length);
}

static void event_report(struct tested *tested) {
    uint8_t record[KULDUVOST_EVENT_RECORD_SIZE];
    uint64_t time = next(tested);
    uint8_t log = (uint8_t)below(tested, 6);
    memset(record, (int)below(tested, 256), sizeof record);
    kulduvost_event_answer told = kulduvost_event_report(&tested->device, time, log, record, sizeof record);
    add(tested, told.code);
    add(tested, told.stored);
    add(tested, told.vector);
}

static void media_report(struct tested *tested) {
    uint64_t time = next(tested), address = any_address(tested);
    uint32_t lines = (uint32_t)below(tested, 5);
    kulduvost_media_answer told = kulduvost_media_report(&tested->device, time, address, lines, (uint8_t)below(tested, 3));
    add(tested, told.code);
    add(tested, told.stored);
    add(tested, told.dropped);
}

static void questions(struct tested *tested) {
    kulduvost_line_answer line = kulduvost_line_test(&tested->device, any_address(tested));
    add(tested, line.code);
    add(tested, line.answer);
    add(tested, line.type);
    kulduvost_event_status_answer status = kulduvost_event_status(&tested->device);
    add(tested, status.bits);
    add(tested, status.waiting);
    add(tested, status.highest);
    add(tested, kulduvost_damage_total(&tested->device));
}

/* Times are random: most Sanitizes are ended by one of the next few calls, and some are still running when the device goes to another
 * thread. The labels are wiped, as the caller has to. */
static void sanitize(struct tested *tested) {
    const uint8_t payload[1] = {0};
    command(tested, KULDUVOST_SANITIZE, payload, 0);
    memset(tested->labels, 0, sizeof tested->labels);
    questions(tested);
}

static void one_call(struct tested *tested) {
    if (below(tested, 50) == 0) {
        sanitize(tested);
    }
    switch (below(tested, 15)) {
    case 0: poison_list(tested); break;
    case 1: event_command(tested); break;
    case 2: other_command(tested); break;
    case 3:
    case 4: event_report(tested); break;
    case 5:
    case 6: questions(tested); break;
    case 7: poison_command(tested); break;
    case 8: label_command(tested); break;
    case 9:
    case 10: pool_command(tested); break;
    default: media_report(tested); break;
    }
}

static void start(struct tested *tested, uint64_t seed) {
    memset(tested, 0, sizeof *tested);
    tested->random = seed;
    tested->checksum = 0xcbf29ce484222325u;
    add(tested, kulduvost_make(&tested->device, 1, (uint16_t)below(tested, 3)));
}

static void turn(struct tested *tested) {
    for (int i = 0; i < CALLS; i++) {
        one_call(tested);
    }
    add_bytes(tested, tested->labels, sizeof tested->labels);
}

/* ---- On several threads: in a turn each thread has the devices of its own number; the barrier hands them on to the next. */
static struct tested together[DEVICES];
static pthread_barrier_t all_done;

static void *one_thread(void *number) {
    size_t thread = *(size_t *)number;
    for (size_t t = 0; t < TURNS; t++) {
        for (size_t i = (thread + t) % THREADS; i < DEVICES; i += THREADS) {
            turn(&together[i]);
        }
        pthread_barrier_wait(&all_done);
    }
    return NULL;
}

static void run_together(void) {
    pthread_t threads[THREADS];
    size_t numbers[THREADS];
    if (pthread_barrier_init(&all_done, NULL, THREADS) != 0) {
        exit(1);
    }
    for (size_t i = 0; i < DEVICES; i++) {
        start(&together[i], i);
    }
    for (size_t i = 0; i < THREADS; i++) {
        numbers[i] = i;
        if (pthread_create(&threads[i], NULL, one_thread, &numbers[i]) != 0) {
            exit(1);
        }
    }
    for (size_t i = 0; i < THREADS; i++) {
        pthread_join(threads[i], NULL);
    }
    pthread_barrier_destroy(&all_done);
}

/* ---- One by one */
static uint64_t alone(uint64_t seed) {
    static struct tested tested;
    start(&tested, seed);
    for (int t = 0; t < TURNS; t++) {
        turn(&tested);
    }
    return tested.checksum;
}

int main(void) {
    int passed = 0, failed = 0;
    run_together();
    for (size_t i = 0; i < DEVICES; i++) {
        bool same = alone(i) == together[i].checksum;
        passed += same;
        failed += !same;
        if (!same && failed == 1) {
            printf("device %zu answered other on several threads than alone\n", i);
        }
    }
    printf("%d passed, %d failed\n", passed, failed);
    return failed == 0 ? 0 : 1;
}
