/*
 * header: the header as a caller uses it, compiled as C11 and as C++11. A device stands in a struct, an array and on the heap; the library
 * that is linked has devices of the header's size; and every function can be called with the types that the header gives it.
 * The last line is `N passed, M failed`; exit status 1 if M is not 0.
 */
#include "kulduvost.h"
#include "kulduvost.h" /* a second time: nothing is declared twice */
#include <stdio.h>
#include <stdlib.h>
#include <string.h>

struct guest {
    char name[3]; /* so that the device is not aligned by chance */
    kulduvost_device device;
};

static int passed, failed;

static void expect(bool holds, const char *what) {
    passed += holds ? 1 : 0;
    failed += holds ? 0 : 1;
    if (!holds) {
        printf("fail: %s\n", what);
    }
}

static bool aligned(const void *at) { return (uintptr_t)at % KULDUVOST_DEVICE_ALIGN == 0; }

/* A label area with a byte after it, and a reply buffer. */
static uint8_t area[KULDUVOST_LABEL_AREA_SIZE + 1], reply[KULDUVOST_MAILBOX_SIZE];

/* A command that is lent what it needs. */
static kulduvost_command_answer command_at(kulduvost_device *device, uint64_t time, uint16_t opcode, const uint8_t *payload,
                                           size_t length) {
    return kulduvost_command(device, opcode, payload, length, time, area, KULDUVOST_LABEL_AREA_SIZE, reply, sizeof reply);
}

static kulduvost_command_answer command(kulduvost_device *device, uint16_t opcode, const uint8_t *payload, size_t length) {
    return command_at(device, 0, opcode, payload, length);
}

/* Each function once, with an answer that document 01 states for a new device of one volatile unit. */
static void calls(kulduvost_device *device) {
    uint8_t bytes[KULDUVOST_MAILBOX_SIZE] = {0};
    uint8_t record[KULDUVOST_EVENT_RECORD_SIZE] = {0};
    uint8_t labels[KULDUVOST_LABEL_AREA_SIZE] = {0};
    expect(kulduvost_make(device, 1, 0) == KULDUVOST_SUCCESS, "make");
    kulduvost_command_answer done =
        kulduvost_command(device, KULDUVOST_IDENTIFY, record, 0, 0, labels, sizeof labels, bytes, sizeof bytes);
    expect(done.code == KULDUVOST_SUCCESS && done.vector == KULDUVOST_VECTOR_NONE && done.length == 69 &&
               memcmp(bytes, "BWFW VERSION 0", 15) == 0,
           "command");
    kulduvost_pool_answer pool = kulduvost_pool_command(device, KULDUVOST_GET_TIMESTAMP, record, 0, 0, bytes, sizeof bytes);
    expect(pool.code == KULDUVOST_SUCCESS && pool.length == 8 && memcmp(bytes, record, 8) == 0, "pool command");
    kulduvost_event_answer event = kulduvost_event_report(device, 0, KULDUVOST_LOG_FATAL, record, sizeof record);
    expect(event.code == KULDUVOST_SUCCESS && event.stored && event.vector == KULDUVOST_VECTOR_NONE, "event report");
    kulduvost_media_answer media = kulduvost_media_report(device, 0, 5 * KULDUVOST_LINE_SIZE, 3, 2);
    expect(media.code == KULDUVOST_SUCCESS && media.stored == 3 && media.dropped == 0, "media report");
    kulduvost_line_answer line = kulduvost_line_test(device, 6 * KULDUVOST_LINE_SIZE);
    expect(line.code == KULDUVOST_SUCCESS && line.answer == KULDUVOST_DAMAGED && line.type == 2, "line test, damaged");
    line = kulduvost_line_test(device, 8 * KULDUVOST_LINE_SIZE);
    expect(line.code == KULDUVOST_SUCCESS && line.answer == KULDUVOST_CLEAN && line.type == 0, "line test, clean");
    kulduvost_event_status_answer status = kulduvost_event_status(device);
    expect(status.bits == 8 && status.waiting == 1 && status.highest == KULDUVOST_LOG_FATAL, "event status");
    expect(kulduvost_damage_total(device) == 3, "damage total");
}

/* A new device in the same memory, which is all zero before. */
static uint16_t made(kulduvost_device *device, uint16_t volatile_units, uint16_t persistent_units) {
    memset(device, 0, sizeof *device);
    return kulduvost_make(device, volatile_units, persistent_units);
}

/* ---- The sizes and return numbers that the header states, by the refusals that stand at them */
static void units_and_lines(kulduvost_device *device) {
    uint64_t end = (uint64_t)KULDUVOST_UNITS_MAX * KULDUVOST_UNIT_LINES * KULDUVOST_LINE_SIZE;
    expect(made(device, 1, KULDUVOST_UNITS_MAX) == KULDUVOST_INVALID_INPUT, "a unit too many");
    expect(made(device, 0, KULDUVOST_UNITS_MAX) == KULDUVOST_SUCCESS, "the most units");
    expect(kulduvost_line_test(device, end - KULDUVOST_LINE_SIZE).code == KULDUVOST_SUCCESS, "the last line");
    expect(kulduvost_line_test(device, end - 1).code == KULDUVOST_INVALID_INPUT, "an unaligned address");
    kulduvost_line_answer line = kulduvost_line_test(device, end);
    expect(line.code == KULDUVOST_INVALID_PHYSICAL_ADDRESS && line.answer == KULDUVOST_UNKNOWN, "the line after the last");
}

static void mailbox(kulduvost_device *device) {
    static uint8_t payload[KULDUVOST_MAILBOX_SIZE + 1];
    const size_t size = KULDUVOST_LABEL_AREA_SIZE, long_by_one = sizeof payload;
    uint8_t clear[8] = {KULDUVOST_LOG_INFO, 0, 1, 0, 0, 0, 1, 0};
    made(device, 1, 0);
    expect(kulduvost_command(device, 0x7777, payload, long_by_one, 0, area, size, reply, sizeof reply - 1).code ==
               KULDUVOST_REPLY_BUFFER_TOO_SMALL,
           "a reply buffer that is too small");
    expect(kulduvost_command(device, 0x7777, payload, long_by_one, 0, area, size - 1, reply, sizeof reply).code ==
               KULDUVOST_REPLY_BUFFER_TOO_SMALL,
           "a label area that is too small");
    expect(kulduvost_command(device, 0x7777, payload, long_by_one, 0, area, size + 1, reply, sizeof reply).code ==
               KULDUVOST_REPLY_BUFFER_TOO_SMALL,
           "a label area that is too great");
    expect(command(device, 0x7777, payload, long_by_one).code == KULDUVOST_INVALID_PAYLOAD_LENGTH, "a payload that is too long");
    expect(command(device, 0x7777, payload, long_by_one - 1).code == KULDUVOST_UNSUPPORTED_OPCODE,
           "an opcode that is not one of the fifteen");
    expect(command(device, KULDUVOST_GET_LOG, payload, 24).code == KULDUVOST_INVALID_LOG, "another log identifier");
    expect(command(device, KULDUVOST_CLEAR_EVENT_RECORDS, clear, sizeof clear).code == KULDUVOST_INVALID_HANDLE, "a handle of no record");
}

/* The Command Effects Log: 60 bytes, of which the last four are those of Sanitize (document 02, W-207). */
#define EFFECTS 0x0d, 0xa9, 0xc0, 0xb5, 0xbf, 0x41, 0x4b, 0x78, 0x8f, 0x79, 0x96, 0xb1, 0x62, 0x3b, 0x3f, 0x17
static void effects_log(kulduvost_device *device) {
    uint8_t whole[24] = {EFFECTS, 0, 0, 0, 0, 60};
    static const uint8_t last[4] = {KULDUVOST_SANITIZE & 255, KULDUVOST_SANITIZE >> 8, 0x64, 0};
    made(device, 1, 0);
    kulduvost_command_answer done = command(device, KULDUVOST_GET_LOG, whole, sizeof whole);
    expect(done.code == KULDUVOST_SUCCESS && done.length == 60 && memcmp(reply + 56, last, sizeof last) == 0, "the effects log");
    whole[20]++;
    expect(command(device, KULDUVOST_GET_LOG, whole, sizeof whole).code == KULDUVOST_INVALID_INPUT, "more than the effects log");
    done = command(device, KULDUVOST_GET_SUPPORTED_LOGS, whole, 0);
    expect(done.length == 28 && reply[24] == 60 && reply[25] == 0 && reply[26] == 0 && reply[27] == 0, "the size of the effects log");
}

static void event_logs(kulduvost_device *device) {
    uint8_t record[KULDUVOST_EVENT_RECORD_SIZE + 1] = {0};
    const size_t size = KULDUVOST_EVENT_RECORD_SIZE;
    made(device, 1, 0);
    expect(kulduvost_event_report(device, 0, 0, record, size + 1).code == KULDUVOST_INVALID_PAYLOAD_LENGTH, "a record that is too long");
    expect(kulduvost_event_report(device, 0, KULDUVOST_EVENT_LOGS, record, size).code == KULDUVOST_INVALID_INPUT, "a log too many");
    for (int i = 0; i < KULDUVOST_EVENT_LOG_RECORDS; i++) {
        expect(kulduvost_event_report(device, 0, KULDUVOST_EVENT_LOGS - 1, record, size).stored, "a log with room");
    }
    kulduvost_event_answer full = kulduvost_event_report(device, 0, KULDUVOST_EVENT_LOGS - 1, record, size);
    expect(full.code == KULDUVOST_SUCCESS && !full.stored, "a full log");
}

/* ---- The label area (document 02, W-206) */
static void put(uint8_t *to, uint32_t number) {
    for (size_t i = 0; i < 4; i++) {
        to[i] = (uint8_t)(number >> 8 * i);
    }
}

static uint16_t get_labels(kulduvost_device *device, uint32_t offset, uint32_t length) {
    uint8_t payload[8];
    put(payload, offset);
    put(payload + 4, length);
    kulduvost_command_answer done = command(device, KULDUVOST_GET_LSA, payload, sizeof payload);
    expect(done.vector == KULDUVOST_VECTOR_NONE && done.length == (done.code == KULDUVOST_SUCCESS ? length : 0), "the answer of a Get");
    return done.code;
}

/* Four bytes of data, 1 to 4, in an area that is `size` bytes long. */
static uint16_t set_labels(kulduvost_device *device, uint32_t offset, uint8_t reserved, size_t size) {
    uint8_t payload[12] = {0, 0, 0, 0, 0, 0, 0, reserved, 1, 2, 3, 4};
    put(payload, offset);
    kulduvost_command_answer done =
        kulduvost_command(device, KULDUVOST_SET_LSA, payload, sizeof payload, 0, area, size, reply, sizeof reply);
    expect(done.vector == KULDUVOST_VECTOR_NONE && done.length == 0, "the answer of a Set");
    return done.code;
}

/* At the end of an area that has 9 in every byte before. */
static void label_area(kulduvost_device *device) {
    const uint32_t size = KULDUVOST_LABEL_AREA_SIZE, most = KULDUVOST_MAILBOX_SIZE;
    static uint8_t expected[KULDUVOST_LABEL_AREA_SIZE + 1];
    made(device, 1, 0);
    memset(area, 9, sizeof area);
    memset(expected, 9, sizeof expected);
    expect(set_labels(device, size - 4, 0, size - 1) == KULDUVOST_REPLY_BUFFER_TOO_SMALL, "a Set in an area that is too small");
    expect(set_labels(device, size - 4, 0, size + 1) == KULDUVOST_REPLY_BUFFER_TOO_SMALL, "a Set in an area that is too great");
    expect(set_labels(device, size - 3, 0, size) == KULDUVOST_INVALID_INPUT, "a Set past the end");
    expect(set_labels(device, size - 4, 1, size) == KULDUVOST_INVALID_INPUT, "a Set with a reserved byte");
    expect(command(device, KULDUVOST_SET_LSA, expected, 7).code == KULDUVOST_INVALID_PAYLOAD_LENGTH, "a Set that is too short");
    expect(command(device, KULDUVOST_GET_LSA, expected, 9).code == KULDUVOST_INVALID_PAYLOAD_LENGTH, "a Get that is too long");
    expect(memcmp(area, expected, sizeof area) == 0, "a refusal leaves the area");
    expect(set_labels(device, size - 4, 0, size) == KULDUVOST_SUCCESS, "a Set up to the end");
    for (uint8_t i = 1; i <= 4; i++) {
        expected[size - 5 + i] = i;
    }
    expect(memcmp(area, expected, sizeof area) == 0, "the data in its place, and no other byte");
    expect(get_labels(device, size - 5, 5) == KULDUVOST_SUCCESS && memcmp(reply, expected + size - 5, 5) == 0, "a Get up to the end");
    expect(get_labels(device, size - 5, 6) == KULDUVOST_INVALID_INPUT, "a Get past the end");
    expect(get_labels(device, size - most, most) == KULDUVOST_SUCCESS && memcmp(reply, expected + size - most, most) == 0,
           "the longest Get");
    expect(get_labels(device, 0, most + 1) == KULDUVOST_INVALID_INPUT, "a longer one");
    expect(command(device, KULDUVOST_IDENTIFY, expected, 0).length == 69 && reply[56] == (size & 255) && reply[57] == size >> 8 &&
               reply[58] == 0 && reply[59] == 0,
           "the label size of Identify");
}

/* ---- The vectors that the header states (documents 01, "Event logs", and 02, W-204) */
static uint16_t enable_all(kulduvost_device *device) {
    const uint8_t policy[KULDUVOST_EVENT_LOGS] = {1, 1, 1, 1, 1};
    kulduvost_command_answer done = command(device, KULDUVOST_SET_EVENT_INTERRUPT_POLICY, policy, sizeof policy);
    expect(done.vector == KULDUVOST_VECTOR_NONE, "no vector for enabling");
    return done.code;
}

static bool raises(kulduvost_device *device, uint8_t log, uint8_t vector) {
    const uint8_t record[KULDUVOST_EVENT_RECORD_SIZE] = {0};
    kulduvost_event_answer told = kulduvost_event_report(device, 0, log, record, sizeof record);
    return told.code == KULDUVOST_SUCCESS && told.stored && told.vector == vector;
}

static bool injection_raises(kulduvost_device *device, uint64_t line, uint8_t vector) {
    uint8_t payload[8] = {(uint8_t)(line * KULDUVOST_LINE_SIZE)};
    kulduvost_command_answer done = command(device, KULDUVOST_INJECT_POISON, payload, sizeof payload);
    return done.code == KULDUVOST_SUCCESS && done.vector == vector && done.length == 0;
}

static void vectors(kulduvost_device *device) {
    static const uint8_t of_log[KULDUVOST_EVENT_LOGS] = {KULDUVOST_VECTOR_INFO, KULDUVOST_VECTOR_WARNING, KULDUVOST_VECTOR_FAILURE,
                                                         KULDUVOST_VECTOR_FATAL, KULDUVOST_VECTOR_DYNAMIC_CAPACITY};
    made(device, 1, 0);
    for (uint8_t log = 0; log < KULDUVOST_EVENT_LOGS; log++) {
        expect(raises(device, log, KULDUVOST_VECTOR_NONE), "no vector of a log that is not enabled");
    }
    made(device, 1, 0);
    expect(enable_all(device) == KULDUVOST_SUCCESS, "all logs are enabled");
    for (uint8_t log = 0; log < KULDUVOST_EVENT_LOGS; log++) {
        expect(raises(device, log, of_log[log]), "the vector of an enabled log that was empty");
        expect(raises(device, log, KULDUVOST_VECTOR_NONE), "no vector of a log that was not empty");
    }
    made(device, 1, 0);
    expect(injection_raises(device, 1, KULDUVOST_VECTOR_NONE), "an injection, log Info not enabled");
    expect(kulduvost_event_status(device).bits == 1 << KULDUVOST_LOG_INFO, "an injection leaves an event in log Info");
    made(device, 1, 0);
    expect(enable_all(device) == KULDUVOST_SUCCESS, "all logs are enabled again");
    expect(injection_raises(device, 1, KULDUVOST_VECTOR_INFO), "an injection, log Info enabled and empty");
    expect(injection_raises(device, 2, KULDUVOST_VECTOR_NONE), "an injection, log Info not empty");
}

/* ---- Sanitize (document 02, W-207) */
static const uint64_t second = 1000000000, begun = 50 * (uint64_t)1000000000, due = 54 * (uint64_t)1000000000;
static const uint8_t nothing[KULDUVOST_EVENT_RECORD_SIZE] = {0};
enum { DAMAGED_LINE = 3, DAMAGE = 2 };

static bool line_is(const kulduvost_device *device, uint64_t address, uint16_t code, uint8_t answer, uint8_t type) {
    kulduvost_line_answer told = kulduvost_line_test(device, address);
    return told.code == code && told.answer == answer && told.type == type;
}

/* Media is disabled: a line that is covered and one that is not are answered alike. */
static bool is_disabled(const kulduvost_device *device) {
    return line_is(device, DAMAGED_LINE * KULDUVOST_LINE_SIZE, KULDUVOST_SUCCESS, KULDUVOST_DISABLED, 0) &&
           line_is(device, 0, KULDUVOST_SUCCESS, KULDUVOST_DISABLED, 0);
}

/* The work has ended: the line is damaged as before, the others are clean, and no log holds a record. */
static bool is_over(const kulduvost_device *device) {
    return line_is(device, DAMAGED_LINE * KULDUVOST_LINE_SIZE, KULDUVOST_SUCCESS, KULDUVOST_DAMAGED, DAMAGE) &&
           line_is(device, 0, KULDUVOST_SUCCESS, KULDUVOST_CLEAN, 0) && kulduvost_event_status(device).bits == 0 &&
           kulduvost_damage_total(device) == 1;
}

/* Any command that is not refused, and changes nothing itself. */
static bool is_over_at(kulduvost_device *device, uint64_t time) {
    expect(command_at(device, time, KULDUVOST_GET_TIMESTAMP, nothing, 0).code == KULDUVOST_SUCCESS, "Get Timestamp");
    expect(is_over(device) != is_disabled(device), "a Sanitize has ended or not");
    return is_over(device);
}

/* The records of a log, and the handle of the last. */
static size_t records_at(kulduvost_device *device, uint64_t time, uint8_t log, uint16_t *handle) {
    kulduvost_command_answer done = command_at(device, time, KULDUVOST_GET_EVENT_RECORDS, &log, 1);
    size_t records = done.code == KULDUVOST_SUCCESS ? (done.length - 32) / KULDUVOST_EVENT_RECORD_SIZE : 0;
    const uint8_t *last = reply + 32 + (records == 0 ? 0 : records - 1) * KULDUVOST_EVENT_RECORD_SIZE;
    *handle = records == 0 ? 0 : (uint16_t)(last[20] | last[21] << 8);
    return records;
}

/* The answer of a Sanitize: no reply, no byte of buffer or area, no vector. */
static uint16_t sanitize(kulduvost_device *device, uint64_t time) {
    memset(reply, 0x5a, sizeof reply);
    memset(area, 9, sizeof area);
    kulduvost_command_answer done = command_at(device, time, KULDUVOST_SANITIZE, nothing, 0);
    bool kept = done.vector == KULDUVOST_VECTOR_NONE && done.length == 0;
    for (size_t i = 0; i < sizeof reply; i++) {
        kept = kept && reply[i] == 0x5a;
    }
    for (size_t i = 0; i < sizeof area; i++) {
        kept = kept && area[i] == 9;
    }
    expect(kept, "a Sanitize writes neither reply nor label area, and raises nothing");
    return done.code;
}

/* A device with a damaged line, all logs enabled, eight records in each and a ninth counted; a Sanitize runs since that time. */
static void sanitized(kulduvost_device *device, uint64_t time) {
    made(device, 1, 0);
    enable_all(device);
    kulduvost_media_report(device, 0, DAMAGED_LINE * KULDUVOST_LINE_SIZE, 1, DAMAGE);
    for (int i = 0; i < KULDUVOST_EVENT_LOGS * (KULDUVOST_EVENT_LOG_RECORDS + 1); i++) {
        kulduvost_event_report(device, 0, (uint8_t)(i % KULDUVOST_EVENT_LOGS), nothing, sizeof nothing);
    }
    kulduvost_device before = *device;
    expect(sanitize(device, time) == KULDUVOST_STARTED, "a Sanitize is started");
    expect(memcmp(device, &before, sizeof before) != 0 && is_disabled(device), "and has changed the device");
}

/* The refusals while media is disabled, directly after that of the length. Each leaves device and label area. */
static void refused_while_disabled(kulduvost_device *device) {
    static const uint16_t opcodes[] = {KULDUVOST_INJECT_POISON, KULDUVOST_CLEAR_POISON, KULDUVOST_GET_LSA, KULDUVOST_SET_LSA};
    static const size_t lengths[] = {8, 72, 8, 12};
    static uint8_t labels[sizeof area];
    uint8_t payload[72];
    memset(payload, 0xff, sizeof payload); /* unaligned, outside, past the end, reserved */
    sanitized(device, begun);
    const kulduvost_device before = *device;
    memcpy(labels, area, sizeof area);
    for (size_t i = 0; i < 4; i++) {
        expect(command_at(device, due - 1, opcodes[i], nothing, lengths[i]).code == KULDUVOST_MEDIA_DISABLED, "media is disabled");
        expect(command_at(device, due - 1, opcodes[i], payload, lengths[i]).code == KULDUVOST_MEDIA_DISABLED, "before its own checks");
        expect(command_at(device, due - 1, opcodes[i], payload, 7).code == KULDUVOST_INVALID_PAYLOAD_LENGTH, "after that of the length");
    }
    expect(memcmp(area, labels, sizeof area) == 0, "a refusal while media is disabled leaves the label area");
    expect(sanitize(device, due - 1) == KULDUVOST_BUSY && sanitize(device, begun) == KULDUVOST_BUSY, "a Sanitize while one runs");
    expect(command_at(device, due - 1, KULDUVOST_SANITIZE, nothing, 1).code == KULDUVOST_INVALID_PAYLOAD_LENGTH, "one with a payload");
    expect(memcmp(device, &before, sizeof before) == 0, "a refusal while media is disabled leaves the device");
    expect(line_is(device, 1, KULDUVOST_INVALID_INPUT, KULDUVOST_UNKNOWN, 0), "an unaligned address while disabled");
    expect(line_is(device, (uint64_t)KULDUVOST_UNIT_LINES * KULDUVOST_LINE_SIZE, KULDUVOST_INVALID_PHYSICAL_ADDRESS, KULDUVOST_UNKNOWN, 0),
           "an address outside while disabled");
}

/* From the start over the last nanosecond to the end: what is held until then, what is left and what goes on. */
static void course(kulduvost_device *device) {
    static const uint8_t first_lines[16] = {0, 0, 0, 0, 0, 0, 0, 0, 8}, five[8] = {5};
    uint8_t later[8]; /* what the clock says at the due time */
    uint16_t handle;
    put(later, (uint32_t)(5 + due - begun));
    put(later + 4, 0);
    sanitized(device, begun);
    expect(kulduvost_event_status(device).waiting == KULDUVOST_EVENT_LOGS && kulduvost_damage_total(device) == 1, "logs and list stay");
    expect(!is_over_at(device, begun) && !is_over_at(device, due - 1), "one nanosecond before");
    kulduvost_event_answer told = kulduvost_event_report(device, due - 1, KULDUVOST_LOG_FATAL, nothing, sizeof nothing);
    expect(told.code == KULDUVOST_SUCCESS && !told.stored && told.vector == KULDUVOST_VECTOR_NONE, "a report to a full log before the end");
    expect(kulduvost_media_report(device, due - 1, DAMAGED_LINE * KULDUVOST_LINE_SIZE, 1, 7).code == KULDUVOST_SUCCESS &&
               is_disabled(device),
           "a media report before the end");
    expect(command_at(device, due - 1, KULDUVOST_GET_POISON_LIST, first_lines, sizeof first_lines).length == 32 + 16,
           "the poison list before the end");
    expect(command_at(device, begun, KULDUVOST_SET_TIMESTAMP, five, sizeof five).code == KULDUVOST_SUCCESS, "Set Timestamp before the end");
    expect(records_at(device, due - 1, KULDUVOST_LOG_FATAL, &handle) == KULDUVOST_EVENT_LOG_RECORDS && handle == 8 && reply[2] == 2,
           "the records and the overflow count until then");
    expect(records_at(device, due, KULDUVOST_LOG_FATAL, &handle) == 0 && (reply[0] & 1) == 0 && reply[2] == 0 && is_over(device),
           "none at the due time, and nothing counted");
    expect(kulduvost_event_report(device, due, KULDUVOST_LOG_FATAL, nothing, sizeof nothing).vector == KULDUVOST_VECTOR_FATAL,
           "the policy stays: the next record raises its vector");
    expect(records_at(device, due, KULDUVOST_LOG_FATAL, &handle) == 1 && handle == 9 && reply[2] == 0, "next handles go on");
    expect(command_at(device, due, KULDUVOST_GET_TIMESTAMP, nothing, 0).length == 8 && memcmp(reply, later, sizeof later) == 0,
           "the clock goes on");
    expect(command_at(device, due, KULDUVOST_GET_LSA, nothing, 8).code == KULDUVOST_SUCCESS, "labels can be read again");
}

/* A call of each kind at the due time, in a log that was full until then. */
static void ended_by_a_report(kulduvost_device *device) {
    static const uint8_t line_seven[8] = {(7 * KULDUVOST_LINE_SIZE) & 255, (7 * KULDUVOST_LINE_SIZE) >> 8};
    uint16_t handle;
    sanitized(device, begun);
    kulduvost_event_answer event = kulduvost_event_report(device, due, KULDUVOST_LOG_WARNING, nothing, sizeof nothing);
    expect(event.code == KULDUVOST_SUCCESS && event.stored && event.vector == KULDUVOST_VECTOR_WARNING, "an event report at the due time");
    expect(kulduvost_event_status(device).bits == 1 << KULDUVOST_LOG_WARNING, "which leaves its record alone");
    sanitized(device, begun);
    kulduvost_media_answer media = kulduvost_media_report(device, due, DAMAGED_LINE * KULDUVOST_LINE_SIZE, 1, 1);
    expect(media.code == KULDUVOST_SUCCESS && media.stored == 0 && is_over(device), "a media report at the due time");
    sanitized(device, begun);
    kulduvost_command_answer done = command_at(device, due, KULDUVOST_INJECT_POISON, line_seven, sizeof line_seven);
    expect(done.code == KULDUVOST_SUCCESS && done.vector == KULDUVOST_VECTOR_INFO, "an injection at the due time");
    expect(records_at(device, due, KULDUVOST_LOG_INFO, &handle) == 1 && handle == 9 && kulduvost_damage_total(device) == 2,
           "which leaves its event");
    sanitized(device, begun);
    expect(sanitize(device, due) == KULDUVOST_STARTED && is_disabled(device) && kulduvost_event_status(device).bits == 0,
           "a Sanitize at the due time ends the old one and starts another");
    expect(!is_over_at(device, due + 4 * second - 1) && is_over_at(device, due + 4 * second), "which ends by its own beginning");
}

/* Calls that are refused on any device, media disabled or not: whether this one is, by its number. */
enum { REFUSED_CALLS = 10 };
static bool refused(kulduvost_device *device, uint64_t time, int call) {
    const size_t size = KULDUVOST_LABEL_AREA_SIZE, room = sizeof reply;
    const uint8_t *none = nothing;
    switch (call) {
    case 0: return kulduvost_command(device, 0x7777, none, 0, time, area, size, reply, room - 1).code == KULDUVOST_REPLY_BUFFER_TOO_SMALL;
    case 1: return kulduvost_command(device, 0x7777, none, 0, time, area, size - 1, reply, room).code == KULDUVOST_REPLY_BUFFER_TOO_SMALL;
    case 2: return command_at(device, time, 0x7777, none, 0).code == KULDUVOST_UNSUPPORTED_OPCODE;
    case 3: return command_at(device, time, KULDUVOST_SET_LSA, none, 7).code == KULDUVOST_INVALID_PAYLOAD_LENGTH;
    case 4: return command_at(device, time, KULDUVOST_SANITIZE, none, 1).code == KULDUVOST_INVALID_PAYLOAD_LENGTH;
    case 5: return command_at(device, time, KULDUVOST_GET_LOG, none, 24).code == KULDUVOST_INVALID_LOG;
    case 6: return kulduvost_event_report(device, time, 0, none, sizeof nothing - 1).code == KULDUVOST_INVALID_PAYLOAD_LENGTH;
    case 7: return kulduvost_event_report(device, time, KULDUVOST_EVENT_LOGS, none, sizeof nothing).code == KULDUVOST_INVALID_INPUT;
    case 8: return kulduvost_media_report(device, time, 0, 1, 3).code == KULDUVOST_INVALID_INPUT;
    default: return kulduvost_media_report(device, time, 0, KULDUVOST_UNIT_LINES + 1, 1).code == KULDUVOST_INVALID_PHYSICAL_ADDRESS;
    }
}

/* One at the due time is refused as ever, and leaves the device that the end leaves. */
static void ended_by_a_refused_call(kulduvost_device *device) {
    static const uint8_t unaligned[8] = {1};
    for (int call = 0; call < REFUSED_CALLS; call++) {
        sanitized(device, begun);
        kulduvost_device before = *device;
        expect(refused(device, due - 1, call), "refused before the due time");
        expect(memcmp(device, &before, sizeof before) == 0, "a refused call before the due time leaves the device");
        expect(refused(device, due, call) && is_over(device), "refused at the due time, and the end stays");
        before = *device;
        expect(refused(device, 0, call) && memcmp(device, &before, sizeof before) == 0, "refused when all is over");
    }
    sanitized(device, begun);
    expect(command_at(device, due, KULDUVOST_INJECT_POISON, unaligned, sizeof unaligned).code == KULDUVOST_INVALID_INPUT && is_over(device),
           "an injection that media no longer blocks, and its own check does");
}

/* The beginning and the due time are the caller's, whatever else a clock says. */
static void times(kulduvost_device *device) {
    static const uint8_t late[8] = {0xff, 0xff, 0xff, 0xff, 0xff, 0xff, 0xff, 0xff};
    sanitized(device, begun);
    expect(!is_over_at(device, begun - 1) && !is_over_at(device, 0), "a clock that goes back ends nothing");
    expect(command_at(device, begun, KULDUVOST_SET_TIMESTAMP, late, 8).code == KULDUVOST_SUCCESS && is_disabled(device),
           "nor does the device time");
    expect(!is_over_at(device, due - 1) && is_over_at(device, UINT64_MAX), "a time long past the due one");
    expect(is_over_at(device, begun), "a clock that goes back then starts nothing");
    sanitized(device, 0);
    expect(!is_over_at(device, 4 * second - 1) && is_over_at(device, 4 * second), "a beginning at 0");
    sanitized(device, UINT64_MAX - 4 * second);
    expect(!is_over_at(device, UINT64_MAX - 1) && !is_over_at(device, 0) && is_over_at(device, UINT64_MAX), "the last due time");
    sanitized(device, UINT64_MAX - 4 * second + 1);
    expect(!is_over_at(device, UINT64_MAX) && !is_over_at(device, 0) && !is_over_at(device, 4 * second), "one that never comes");
    sanitized(device, UINT64_MAX);
    expect(!is_over_at(device, UINT64_MAX) && !is_over_at(device, 4 * second - 1) && !is_over_at(device, due), "the last beginning");
}

/* The rows of the table: the fewest and the most units of each, of both kinds together. */
static void durations(kulduvost_device *device) {
    static const uint16_t most[] = {2, 4, 8, 16, 32, 64, 128, 256, 512, KULDUVOST_UNITS_MAX};
    static const uint16_t seconds[] = {4, 8, 15, 30, 60, 120, 240, 480, 900, 1800};
    for (size_t i = 0; i < 20; i++) {
        uint16_t units = i % 2 == 1 ? most[i / 2] : (uint16_t)(i == 0 ? 1 : most[i / 2 - 1] + 1), half = (uint16_t)(units / 2);
        uint64_t end = begun + seconds[i / 2] * second;
        made(device, half, (uint16_t)(units - half));
        kulduvost_media_report(device, 0, DAMAGED_LINE * KULDUVOST_LINE_SIZE, 1, DAMAGE);
        expect(sanitize(device, begun) == KULDUVOST_STARTED && !is_over_at(device, end - 1) && is_over_at(device, end),
               "a row of the table");
    }
}

/* ---- The second mailbox (document 02, W-208) */
static bool pool_left_all = true; /* what a pool command has to leave, of all made here */

/* By a pointer through which the device cannot be changed. Whatever the answer, every byte of the device stays, and every byte of the
 * buffer after the reply; a refusal has no reply. */
static kulduvost_pool_answer pool_lent(const kulduvost_device *device, uint64_t time, uint16_t opcode, const uint8_t *payload,
                                       size_t length, size_t room) {
    static uint8_t before[sizeof reply];
    const kulduvost_device stays = *device;
    memset(before, 0x5a, sizeof before);
    memcpy(reply, before, sizeof reply);
    kulduvost_pool_answer done = kulduvost_pool_command(device, opcode, payload, length, time, reply, room);
    pool_left_all = pool_left_all && memcmp(device, &stays, sizeof stays) == 0 && done.length <= sizeof reply &&
                    memcmp(reply + done.length, before, sizeof reply - done.length) == 0 &&
                    (done.code == KULDUVOST_SUCCESS || done.length == 0);
    return done;
}

static kulduvost_pool_answer pool_at(const kulduvost_device *device, uint64_t time, uint16_t opcode, const uint8_t *payload,
                                     size_t length) {
    return pool_lent(device, time, opcode, payload, length, sizeof reply);
}

static bool pool_refuses(const kulduvost_device *device, uint16_t opcode, const uint8_t *payload, size_t length, uint16_t code) {
    return pool_at(device, due, opcode, payload, length).code == code;
}

/* The seven, each with a payload that is accepted and the length of its reply on the device that `sanitized` leaves. */
enum { SEVEN = 7, LISTED = 4 * SEVEN };
static const struct {
    uint16_t opcode;
    uint8_t payload[24];
    size_t length, replied;
} seven[SEVEN] = {{KULDUVOST_GET_EVENT_RECORDS, {KULDUVOST_LOG_FATAL}, 1, 32 + 8 * KULDUVOST_EVENT_RECORD_SIZE},
                  {KULDUVOST_GET_EVENT_INTERRUPT_POLICY, {0}, 0, KULDUVOST_EVENT_LOGS},
                  {KULDUVOST_GET_TIMESTAMP, {0}, 0, 8},
                  {KULDUVOST_GET_SUPPORTED_LOGS, {0}, 0, 28},
                  {KULDUVOST_GET_LOG, {EFFECTS, 0, 0, 0, 0, LISTED}, 24, LISTED},
                  {KULDUVOST_IDENTIFY, {0}, 0, 69},
                  {KULDUVOST_GET_POISON_LIST, {0, 0, 0, 0, 0, 0, 0, 0, 8}, 16, 32 + 16}};

static bool is_of_seven(uint16_t opcode) {
    for (size_t i = 0; i < SEVEN; i++) {
        if (seven[i].opcode == opcode) {
            return true;
        }
    }
    return false;
}

static bool is_about_effects(uint16_t opcode) { return opcode == KULDUVOST_GET_SUPPORTED_LOGS || opcode == KULDUVOST_GET_LOG; }

/* The effects log has "4 bytes a command, opcode then effect" (document 01); the effect of each of the seven is 0. */
#define NO_EFFECT(opcode) (opcode) & 255, (opcode) >> 8, 0, 0

/* Each of the seven at a time that is not due answers what the first mailbox answers, but for the effects log, which has its own. */
static void pool_seven(kulduvost_device *device) {
    static const uint8_t listed[LISTED] = {NO_EFFECT(0x0100), NO_EFFECT(0x0102), NO_EFFECT(0x0300), NO_EFFECT(0x0400),
                                           NO_EFFECT(0x0401), NO_EFFECT(0x4000), NO_EFFECT(0x4300)};
    static uint8_t told[sizeof reply];
    sanitized(device, begun);
    for (size_t i = 0; i < SEVEN; i++) {
        kulduvost_device first = *device;
        kulduvost_pool_answer done = pool_at(device, due - 1, seven[i].opcode, seven[i].payload, seven[i].length);
        expect(done.code == KULDUVOST_SUCCESS && done.length == seven[i].replied, "each of the seven, media disabled");
        memcpy(told, reply, sizeof told);
        kulduvost_command_answer asked = command_at(&first, due - 1, seven[i].opcode, seven[i].payload, seven[i].length);
        expect(asked.code == KULDUVOST_SUCCESS && (is_about_effects(seven[i].opcode) ||
                                                   (asked.length == done.length && memcmp(reply, told, done.length) == 0)),
               "the reply that the first mailbox gives");
    }
    pool_at(device, 0, KULDUVOST_GET_LOG, seven[4].payload, 24);
    expect(memcmp(reply, listed, sizeof listed) == 0, "the effects log of the seven");
    pool_at(device, 0, KULDUVOST_GET_SUPPORTED_LOGS, nothing, 0);
    expect(reply[24] == LISTED && reply[25] == 0 && reply[26] == 0 && reply[27] == 0, "the size of that effects log");
}

/* Every opcode there is, with no payload and with the longest: 0003h where the first mailbox gives it; else, of the seven, what it gives,
 * and of the others 0015h, before the length is looked at. */
static void pool_opcodes(kulduvost_device *device) {
    static const uint8_t longest[KULDUVOST_MAILBOX_SIZE] = {0};
    uint32_t had = 0, other = 0, wrong = 0;
    sanitized(device, begun);
    for (uint32_t i = 0; i < 0x20000; i++) {
        uint16_t opcode = (uint16_t)(i >> 1);
        size_t length = i % 2 == 0 ? 0 : sizeof longest;
        kulduvost_device first = *device;
        uint16_t code = pool_at(device, begun, opcode, longest, length).code;
        uint16_t of_first = command_at(&first, begun, opcode, longest, length).code;
        bool of_seven = is_of_seven(opcode), not_here = of_first != KULDUVOST_UNSUPPORTED_OPCODE && !of_seven;
        had += of_seven;
        other += not_here;
        wrong += not_here ? code != KULDUVOST_UNSUPPORTED_MAILBOX : code != of_first;
    }
    expect(had == 2 * SEVEN && other == 2 * 8 && wrong == 0, "every opcode through the second mailbox");
}

/* The refusals in their order, each with what would be refused next. */
static void pool_refusals(kulduvost_device *device) {
    static const uint8_t payload[KULDUVOST_MAILBOX_SIZE + 1] = {KULDUVOST_EVENT_LOGS};
    uint8_t past[24] = {EFFECTS, 1, 0, 0, 0, LISTED}, outside[16] = {KULDUVOST_LINE_SIZE};
    const size_t most = KULDUVOST_MAILBOX_SIZE;
    put(outside + 8, KULDUVOST_UNIT_LINES);
    sanitized(device, begun);
    expect(pool_lent(device, due, 0x7777, payload, most + 1, most - 1).code == KULDUVOST_REPLY_BUFFER_TOO_SMALL, "too small a buffer");
    expect(pool_lent(device, due, KULDUVOST_IDENTIFY, payload, 0, 0).code == KULDUVOST_REPLY_BUFFER_TOO_SMALL, "no reply buffer");
    expect(pool_refuses(device, 0x7777, payload, most + 1, KULDUVOST_INVALID_PAYLOAD_LENGTH), "too long, of an opcode that is not there");
    expect(pool_refuses(device, KULDUVOST_SET_LSA, payload, most + 1, KULDUVOST_INVALID_PAYLOAD_LENGTH), "too long, of another's");
    expect(pool_refuses(device, 0x7777, payload, most, KULDUVOST_UNSUPPORTED_OPCODE), "an opcode that is not there");
    expect(pool_refuses(device, KULDUVOST_SANITIZE, payload, 1, KULDUVOST_UNSUPPORTED_MAILBOX), "another's, and its length wrong");
    expect(pool_refuses(device, KULDUVOST_GET_LSA, payload, 8, KULDUVOST_UNSUPPORTED_MAILBOX), "another's, and media disabled");
    expect(pool_refuses(device, KULDUVOST_GET_EVENT_RECORDS, payload, 2, KULDUVOST_INVALID_PAYLOAD_LENGTH), "a wrong length");
    expect(pool_refuses(device, KULDUVOST_GET_EVENT_RECORDS, payload, 1, KULDUVOST_INVALID_INPUT), "a log too many");
    expect(pool_refuses(device, KULDUVOST_GET_LOG, payload, 24, KULDUVOST_INVALID_LOG), "another log identifier");
    expect(pool_refuses(device, KULDUVOST_GET_LOG, past, sizeof past, KULDUVOST_INVALID_INPUT), "past the effects log of the seven");
    expect(pool_refuses(device, KULDUVOST_GET_POISON_LIST, payload, 16, KULDUVOST_INVALID_INPUT), "an unaligned address");
    expect(pool_refuses(device, KULDUVOST_GET_POISON_LIST, outside, sizeof outside, KULDUVOST_INVALID_PHYSICAL_ADDRESS), "past the end");
}

/* A due Sanitize stays due through any of them, and the next command of the first mailbox ends it. */
static void pool_ends_nothing(kulduvost_device *device) {
    uint16_t handle;
    sanitized(device, begun);
    const kulduvost_device before = *device;
    for (size_t i = 0; i < SEVEN; i++) {
        kulduvost_pool_answer done = pool_at(device, due, seven[i].opcode, seven[i].payload, seven[i].length);
        kulduvost_pool_answer late = pool_at(device, UINT64_MAX, seven[i].opcode, seven[i].payload, seven[i].length);
        expect(done.code == KULDUVOST_SUCCESS && done.length == seven[i].replied && late.code == done.code && late.length == done.length,
               "each of the seven, a Sanitize due");
    }
    expect(pool_refuses(device, KULDUVOST_SANITIZE, nothing, 0, KULDUVOST_UNSUPPORTED_MAILBOX), "a refused one, a Sanitize due");
    expect(memcmp(device, &before, sizeof before) == 0 && is_disabled(device), "pool commands at the due time leave the device");
    expect(records_at(device, due, KULDUVOST_LOG_FATAL, &handle) == 0 && is_over(device), "a command of the first mailbox ends it");
    expect(pool_at(device, due, KULDUVOST_GET_EVENT_RECORDS, seven[0].payload, 1).length == 32, "then the second sees the emptied log");
}

static void second_mailbox(kulduvost_device *device) {
    pool_seven(device);
    pool_opcodes(device);
    pool_refusals(device);
    pool_ends_nothing(device);
    expect(pool_left_all, "every pool command leaves the device, and the bytes after its reply");
}

static void poison_entries(kulduvost_device *device) {
    static uint8_t payload[8];
    uint32_t stored = 0;
    made(device, 1, 0);
    for (uint32_t i = 1; i <= KULDUVOST_POISON_ENTRIES; i++) {
        stored += kulduvost_media_report(device, 0, (uint64_t)2 * i * KULDUVOST_LINE_SIZE, 1, 0).stored;
    }
    expect(stored == KULDUVOST_POISON_ENTRIES, "a poison list with room");
    expect(command(device, KULDUVOST_INJECT_POISON, payload, sizeof payload).code == KULDUVOST_INJECT_POISON_LIMIT, "a full poison list");
}

int main(void) {
    static struct guest guests[3];
    kulduvost_device *heap = (kulduvost_device *)calloc(2, sizeof(kulduvost_device));
    expect(kulduvost_device_size() == KULDUVOST_DEVICE_SIZE, "the library's devices have the header's size");
    expect(sizeof(kulduvost_device[2]) == 2 * KULDUVOST_DEVICE_SIZE, "no byte between the devices of an array");
    for (size_t i = 0; i < 3; i++) {
        expect(aligned(&guests[i].device), "a device in a struct is aligned");
        calls(&guests[i].device);
    }
    expect(heap != NULL && aligned(heap), "a device on the heap is aligned");
    if (heap != NULL) {
        calls(&heap[1]);
        units_and_lines(&heap[0]);
        mailbox(&heap[0]);
        effects_log(&heap[0]);
        label_area(&heap[0]);
        event_logs(&heap[0]);
        vectors(&heap[0]);
        refused_while_disabled(&heap[0]);
        course(&heap[0]);
        ended_by_a_report(&heap[0]);
        ended_by_a_refused_call(&heap[0]);
        times(&heap[0]);
        durations(&heap[0]);
        second_mailbox(&heap[0]);
        poison_entries(&heap[0]);
    }
    free(heap);
    printf("%d passed, %d failed\n", passed, failed);
    return failed == 0 ? 0 : 1;
}
