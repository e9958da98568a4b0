/*
 * One guest's memory device in a hypervisor: the mailbox registers, the doorbell, the interrupts, the read path, the label area, the pool
 * manager's own mailbox, the Sanitize before it is handed on, and the incident that Kulduvost is there for, replayed. Exits with 1 if
 * anything is not as expected.
 *
 *   cc -std=c11 -I OUT/include examples/host.c OUT/lib/libkulduvost.a -o host        (OUT: where tests/library wrote)
 */
#define _POSIX_C_SOURCE 199309L
#include "kulduvost.h"
#include <stdio.h>
#include <stdlib.h>
#include <string.h>
#include <time.h>

/* ---- The guest's device. All functions of a guest are called with that guest's lock held: one call at a time on a device. */

/* The registers of the primary mailbox (CXL r3.1 section 8.2.8.4). An access of the guest comes to the hypervisor, which does it here. */
struct mailbox {
    uint32_t control; /* bit 0: doorbell */
    uint64_t command; /* bits 0 to 15: opcode; bits 16 to 36: payload length */
    uint64_t status;  /* bits 32 to 47: return code */
    uint8_t payload[KULDUVOST_MAILBOX_SIZE];
};

struct guest {
    kulduvost_device device;
    struct mailbox mailbox;
    uint8_t *memory; /* the bytes that the device stands for: the caller's, not the library's */
    uint8_t labels[KULDUVOST_LABEL_AREA_SIZE]; /* the label area: the caller's too, the same with every command */
    unsigned raised[KULDUVOST_VECTOR_FATAL + 1]; /* how often each vector was raised */
};

#define DOORBELL 1u
#define SECOND UINT64_C(1000000000)

static uint64_t ahead; /* the example does not wait: it puts its clock forward */

static uint64_t now(void) {
    struct timespec t;
    clock_gettime(CLOCK_MONOTONIC, &t);
    return (uint64_t)t.tv_sec * SECOND + (uint64_t)t.tv_nsec + ahead;
}

static uint64_t load64(const uint8_t *from) {
    uint64_t n = 0;
    for (int i = 7; i >= 0; i--) {
        n = n << 8 | from[i];
    }
    return n;
}

static void store64(uint8_t *to, uint64_t n) {
    for (int i = 0; i < 8; i++) {
        to[i] = (uint8_t)(n >> 8 * i);
    }
}

/* A guest with one volatile unit, all zero before make (calloc). Null if there is no memory, or header and library do not fit. */
static struct guest *guest_new(void) {
    struct guest *guest = calloc(1, sizeof *guest);
    if (guest == NULL) {
        return NULL;
    }
    guest->memory = calloc(KULDUVOST_UNIT_LINES, KULDUVOST_LINE_SIZE);
    if (guest->memory == NULL || kulduvost_device_size() != sizeof guest->device || kulduvost_make(&guest->device, 1, 0) != KULDUVOST_SUCCESS) {
        free(guest->memory);
        free(guest);
        return NULL;
    }
    return guest;
}

static void guest_free(struct guest *guest) {
    free(guest->memory);
    free(guest);
}

/* The read path: one line. Only Success with Clean permits, so that Disabled blocks too; false fails the guest's read, and no byte is
 * handed out. */
static bool guest_read(struct guest *guest, uint64_t address, uint8_t line[KULDUVOST_LINE_SIZE]) {
    kulduvost_line_answer told = kulduvost_line_test(&guest->device, address);
    if (told.code != KULDUVOST_SUCCESS || told.answer != KULDUVOST_CLEAN) {
        return false;
    }
    memcpy(line, guest->memory + address, KULDUVOST_LINE_SIZE);
    return true;
}

/* Raises the interrupt that an answer carries, if any. A hypervisor sends the guest the MSI or MSI-X message of that number; here it is
 * counted. */
static void guest_interrupt(struct guest *guest, uint8_t vector) {
    if (vector != KULDUVOST_VECTOR_NONE) {
        guest->raised[vector]++;
    }
}

/* An event for the guest's log. With eight records held it is counted as overflow, and Success answers not stored. */
static kulduvost_event_answer guest_event(struct guest *guest, uint8_t log, const uint8_t record[KULDUVOST_EVENT_RECORD_SIZE]) {
    kulduvost_event_answer told = kulduvost_event_report(&guest->device, now(), log, record, KULDUVOST_EVENT_RECORD_SIZE);
    guest_interrupt(guest, told.vector);
    return told;
}

/* The hardware told of damage. Nothing is lost where lines are dropped: from then on no line that the list does not cover is Clean. */
static kulduvost_media_answer guest_damaged(struct guest *guest, uint64_t address, uint32_t lines, uint8_t type) {
    return kulduvost_media_report(&guest->device, now(), address, lines, type);
}

/* The caller's part of a Sanitize: the library has neither of the two. It must be done before a call ends the Sanitize and so opens the read
 * path; a host that does it in the background makes no call at the due time or later until it is done. */
static void guest_wipe(struct guest *guest) {
    memset(guest->memory, 0, (size_t)KULDUVOST_UNIT_LINES * KULDUVOST_LINE_SIZE);
    memset(guest->labels, 0, sizeof guest->labels);
}

/* The host's timer. A Sanitize ends at a command of the guest's mailbox or a report, and a guest that only reads makes none: this is one,
 * lent a buffer of its own. */
static void guest_timer(struct guest *guest) {
    uint8_t none[1] = {0}, reply[KULDUVOST_MAILBOX_SIZE];
    kulduvost_command(&guest->device, KULDUVOST_GET_TIMESTAMP, none, 0, now(), guest->labels, sizeof guest->labels, reply, sizeof reply);
}

/* Runs the command in the registers. Request and reply share the payload area and buffers of a call may not overlap: the request is copied. */
static kulduvost_command_answer mailbox_run(struct guest *guest) {
    struct mailbox *mailbox = &guest->mailbox;
    uint16_t opcode = (uint16_t)mailbox->command;
    size_t length = mailbox->command >> 16 & 0x1fffff;
    uint8_t request[KULDUVOST_MAILBOX_SIZE];
    if (length > sizeof request) { /* more than there is: a length must be true, so the device's own answer is given here */
        return (kulduvost_command_answer){.code = KULDUVOST_INVALID_PAYLOAD_LENGTH, .vector = KULDUVOST_VECTOR_NONE, .length = 0};
    }
    memcpy(request, mailbox->payload, length);
    kulduvost_command_answer done = kulduvost_command(&guest->device, opcode, request, length, now(), guest->labels, sizeof guest->labels,
                                                      mailbox->payload, sizeof mailbox->payload);
    if (done.code == KULDUVOST_SUCCESS && opcode == KULDUVOST_CLEAR_POISON) {
        /* document 01: after a Clear Poison answered Success the caller writes payload bytes 8 to 71 to the line; Success says that the
         * address is aligned and inside the device */
        memcpy(guest->memory + load64(request), request + 8, KULDUVOST_LINE_SIZE);
    }
    if (done.code == KULDUVOST_STARTED) { /* of a Sanitize alone; no refusal */
        guest_wipe(guest);
    }
    return done;
}

/* The guest rang the doorbell: the command is run, its code and the reply's length are shown, and the doorbell is clear again. Then the
 * command's interrupt is raised: a guest that takes it at once finds the command done. */
static void mailbox_doorbell(struct guest *guest) {
    kulduvost_command_answer done = mailbox_run(guest);
    guest->mailbox.status = (uint64_t)done.code << 32;
    guest->mailbox.command = (guest->mailbox.command & 0xffff) | (uint64_t)done.length << 16;
    guest->mailbox.control &= ~DOORBELL;
    guest_interrupt(guest, done.vector);
}

/* ---- The guest's side of the mailbox, played here */
static uint16_t guest_sends(struct guest *guest, uint16_t opcode, const uint8_t *payload, size_t length) {
    memcpy(guest->mailbox.payload, payload, length);
    guest->mailbox.command = opcode | (uint64_t)length << 16;
    guest->mailbox.control |= DOORBELL;
    mailbox_doorbell(guest);
    return (uint16_t)(guest->mailbox.status >> 32);
}

static uint16_t guest_clears(struct guest *guest, uint64_t address, uint8_t fill) {
    uint8_t payload[8 + KULDUVOST_LINE_SIZE];
    store64(payload, address);
    memset(payload + 8, fill, KULDUVOST_LINE_SIZE);
    return guest_sends(guest, KULDUVOST_CLEAR_POISON, payload, sizeof payload);
}

static uint16_t guest_injects(struct guest *guest, uint64_t address) {
    uint8_t payload[8];
    store64(payload, address);
    return guest_sends(guest, KULDUVOST_INJECT_POISON, payload, sizeof payload);
}

/* Log Info alone interrupts. */
static uint16_t guest_enables_info(struct guest *guest) {
    const uint8_t payload[KULDUVOST_EVENT_LOGS] = {[KULDUVOST_LOG_INFO] = 1};
    return guest_sends(guest, KULDUVOST_SET_EVENT_INTERRUPT_POLICY, payload, sizeof payload);
}

/* What a guest does at an interrupt: reads the records of a log, and clears them by their handles, which are bytes 20 and 21 of a record.
 * The records read, oldest first; their number is given back, 0 where a command is refused. */
static size_t guest_empties_log(struct guest *guest, uint8_t log, uint8_t records[][KULDUVOST_EVENT_RECORD_SIZE]) {
    uint8_t clear[6 + 2 * KULDUVOST_EVENT_LOG_RECORDS] = {log};
    if (guest_sends(guest, KULDUVOST_GET_EVENT_RECORDS, &log, 1) != KULDUVOST_SUCCESS) {
        return 0;
    }
    size_t count = guest->mailbox.payload[20]; /* of at most eight: the second byte of the count is 0 */
    memcpy(records, guest->mailbox.payload + 32, count * KULDUVOST_EVENT_RECORD_SIZE);
    clear[2] = (uint8_t)count;
    for (size_t i = 0; i < count; i++) {
        memcpy(clear + 6 + 2 * i, records[i] + 20, 2);
    }
    return guest_sends(guest, KULDUVOST_CLEAR_EVENT_RECORDS, clear, 6 + 2 * count) == KULDUVOST_SUCCESS ? count : 0;
}

/* ---- The pool manager's side: a mailbox of its own to the same device (document 02, W-208), under the same lock. It has no pointer by
 * which the device can be changed, and no label area; the buffer is its own. */
static kulduvost_pool_answer pool_asks(const struct guest *guest, uint16_t opcode, const uint8_t *payload, size_t length,
                                       uint8_t reply[KULDUVOST_MAILBOX_SIZE]) {
    return kulduvost_pool_command(&guest->device, opcode, payload, length, now(), reply, KULDUVOST_MAILBOX_SIZE);
}

/* ---- The example */
static bool all_as_expected = true;

static void expect(bool holds, const char *what) {
    printf("%s  %s\n", holds ? "as expected " : "NOT EXPECTED", what);
    all_as_expected = all_as_expected && holds;
}

static uint64_t address_of(uint64_t line) { return line * KULDUVOST_LINE_SIZE; }

static void one_line_damaged_and_cleared(struct guest *guest) {
    uint8_t line[KULDUVOST_LINE_SIZE];
    expect(guest_read(guest, address_of(7), line), "a new device: the read of line 7 is served");
    kulduvost_media_answer told = guest_damaged(guest, address_of(7), 1, 1);
    expect(told.code == KULDUVOST_SUCCESS && told.stored == 1, "line 7 is reported damaged and stored");
    expect(!guest_read(guest, address_of(7), line), "the read of line 7 blocks");
    expect(guest_clears(guest, address_of(7), 0x5a) == KULDUVOST_SUCCESS, "the guest clears line 7 with new data");
    expect(guest_read(guest, address_of(7), line) && line[0] == 0x5a && line[63] == 0x5a, "the read of line 7 is served with that data");
    expect(guest_clears(guest, 1, 0) == KULDUVOST_INVALID_INPUT, "a clear of an unaligned address is refused");
    expect(!guest_read(guest, address_of(KULDUVOST_UNIT_LINES), line), "a read past the device blocks");
}

/* The guest injects damage and is told of it by an interrupt; a log that holds a record already raises no other. */
static void injection_and_its_interrupt(struct guest *guest) {
    static const uint8_t event[KULDUVOST_EVENT_RECORD_SIZE];
    uint8_t records[KULDUVOST_EVENT_LOG_RECORDS][KULDUVOST_EVENT_RECORD_SIZE] = {{0}}, line[KULDUVOST_LINE_SIZE];
    const unsigned *info = &guest->raised[KULDUVOST_VECTOR_INFO];
    expect(guest_enables_info(guest) == KULDUVOST_SUCCESS && *info == 0, "the guest enables the interrupts of log Info: none is raised yet");
    expect(guest_injects(guest, address_of(9)) == KULDUVOST_SUCCESS && *info == 1, "the guest injects damage of line 9: vector 2 is raised");
    expect(!guest_read(guest, address_of(9), line), "the read of line 9 blocks");
    expect(guest_injects(guest, address_of(9)) == KULDUVOST_SUCCESS && *info == 1, "line 9 again, covered by now: no event, no interrupt");
    expect(guest_injects(guest, address_of(11)) == KULDUVOST_SUCCESS && *info == 1, "line 11: its event finds the log not empty, no interrupt");
    expect(guest_empties_log(guest, KULDUVOST_LOG_INFO, records) == 2, "the guest reads two records and clears them");
    expect(load64(records[0] + 48) == address_of(9) && load64(records[1] + 48) == address_of(11), "they name lines 9 and 11");
    expect(guest_event(guest, KULDUVOST_LOG_INFO, event).stored && *info == 2, "an event of the host's for the emptied log: vector 2 again");
    expect(guest_event(guest, KULDUVOST_LOG_FATAL, event).stored && guest->raised[KULDUVOST_VECTOR_FATAL] == 0,
           "an event for log Fatal, which is not enabled: no interrupt");
    expect(guest_empties_log(guest, KULDUVOST_LOG_INFO, records) == 1 && guest_empties_log(guest, KULDUVOST_LOG_FATAL, records) == 1 &&
               kulduvost_event_status(&guest->device).waiting == 0,
           "the guest reads and clears both: no log is waiting");
    expect(guest_clears(guest, address_of(9), 0) == KULDUVOST_SUCCESS && guest_clears(guest, address_of(11), 0) == KULDUVOST_SUCCESS &&
               *info == 2,
           "the guest clears lines 9 and 11: a clear raises no interrupt");
}

/* The guest writes the label of a namespace and reads it back. */
static void label_written_and_read(struct guest *guest) {
    static const char label[] = "namespace 0";
    uint8_t set[8 + sizeof label], get[8];
    store64(set, 256); /* offset 4, reserved 4 */
    memcpy(set + 8, label, sizeof label);
    store64(get, 256 | (uint64_t)sizeof label << 32); /* offset 4, length 4 */
    expect(guest_sends(guest, KULDUVOST_SET_LSA, set, sizeof set) == KULDUVOST_SUCCESS, "the guest writes a label at byte 256");
    expect(guest_sends(guest, KULDUVOST_GET_LSA, get, sizeof get) == KULDUVOST_SUCCESS &&
               memcmp(guest->mailbox.payload, label, sizeof label) == 0,
           "the guest reads it back");
    store64(get, (KULDUVOST_LABEL_AREA_SIZE - 1) | (uint64_t)2 << 32);
    expect(guest_sends(guest, KULDUVOST_GET_LSA, get, sizeof get) == KULDUVOST_INVALID_INPUT, "a read past the label area's end is refused");
}

/* Between two commands of the guest the pool manager looks at its list and its log. */
static void pool_manager_looks(struct guest *guest) {
    static uint8_t before[sizeof *guest];
    uint8_t records[KULDUVOST_EVENT_LOG_RECORDS][KULDUVOST_EVENT_RECORD_SIZE], reply[KULDUVOST_MAILBOX_SIZE], range[16];
    const uint8_t log = KULDUVOST_LOG_INFO;
    store64(range, 0);
    store64(range + 8, KULDUVOST_UNIT_LINES);
    expect(guest_injects(guest, address_of(21)) == KULDUVOST_SUCCESS, "the guest injects damage of line 21");
    memcpy(before, guest, sizeof before);
    kulduvost_pool_answer told = pool_asks(guest, KULDUVOST_GET_POISON_LIST, range, sizeof range, reply);
    /* one record; the low bits of its address are the type */
    expect(told.code == KULDUVOST_SUCCESS && told.length == 32 + 16 && load64(reply + 32) / KULDUVOST_LINE_SIZE == 21,
           "the pool manager finds line 21 in the guest's list");
    told = pool_asks(guest, KULDUVOST_GET_EVENT_RECORDS, &log, 1, reply);
    expect(told.code == KULDUVOST_SUCCESS && load64(reply + 32 + 48) == address_of(21), "and its event in the guest's log Info");
    expect(pool_asks(guest, KULDUVOST_CLEAR_POISON, range, 8, reply).code == KULDUVOST_UNSUPPORTED_MAILBOX, "it can clear nothing");
    expect(memcmp(before, guest, sizeof before) == 0, "nothing of the guest's has changed: device, mailbox, labels, interrupts");
    expect(guest_empties_log(guest, log, records) == 1 && guest_clears(guest, address_of(21), 0) == KULDUVOST_SUCCESS,
           "the guest reads and clears the event, and clears the line");
}

/* A tenant leaves: nothing of its is left in memory, labels and logs, and until then no read is served. Damage stays: line 13 is as bad for
 * the next one. */
static void guest_handed_on(struct guest *guest) {
    static const uint8_t event[KULDUVOST_EVENT_RECORD_SIZE];
    uint8_t line[KULDUVOST_LINE_SIZE], labels[KULDUVOST_LABEL_AREA_SIZE] = {0}, reply[KULDUVOST_MAILBOX_SIZE];
    expect(guest_clears(guest, address_of(5), 0x77) == KULDUVOST_SUCCESS && guest_read(guest, address_of(5), line) && line[0] == 0x77,
           "the tenant has data in line 5");
    expect(guest_event(guest, KULDUVOST_LOG_INFO, event).stored, "and an event in log Info");
    expect(guest_damaged(guest, address_of(13), 1, 1).stored == 1, "line 13 is reported damaged");
    expect(guest_sends(guest, KULDUVOST_SANITIZE, line, 0) == KULDUVOST_STARTED, "a Sanitize is started, and the host wipes");
    expect(memcmp(guest->labels, labels, sizeof labels) == 0, "the label area is wiped");
    expect(!guest_read(guest, address_of(5), line) && kulduvost_line_test(&guest->device, address_of(5)).answer == KULDUVOST_DISABLED,
           "the read of line 5 blocks: Disabled");
    ahead += 4 * SECOND;
    expect(!guest_read(guest, address_of(5), line), "four seconds later it still blocks: a line test ends nothing");
    expect(pool_asks(guest, KULDUVOST_GET_TIMESTAMP, line, 0, reply).code == KULDUVOST_SUCCESS && !guest_read(guest, address_of(5), line),
           "nor does a command of the pool manager's");
    guest_timer(guest);
    expect(guest_read(guest, address_of(5), line) && line[0] == 0, "the host's timer has ended it: line 5 is served, and wiped");
    expect(kulduvost_event_status(&guest->device).waiting == 0, "no log holds an event");
    expect(!guest_read(guest, address_of(13), line), "the read of line 13 blocks");
    expect(guest_clears(guest, address_of(13), 0) == KULDUVOST_SUCCESS, "the next tenant clears line 13");
}

/* In spring a poison list was full; one more report of damage was dropped, and the line read as clean. */
static void incident(struct guest *guest) {
    uint8_t line[KULDUVOST_LINE_SIZE];
    bool stored = true;
    for (uint64_t i = 0; i < KULDUVOST_POISON_ENTRIES; i++) {
        stored = guest_damaged(guest, address_of(2 * i), 1, 1).stored == 1 && stored;
    }
    expect(stored, "256 lines are reported damaged: the poison list is full");
    expect(guest_read(guest, address_of(1001), line), "the read of line 1001 is still served");
    kulduvost_media_answer told = guest_damaged(guest, address_of(1001), 1, 1);
    expect(told.code == KULDUVOST_SUCCESS && told.dropped == 1, "line 1001 is reported damaged and dropped for want of an entry");
    expect(kulduvost_line_test(&guest->device, address_of(1001)).answer == KULDUVOST_UNKNOWN, "the line test of line 1001 says Unknown");
    expect(!guest_read(guest, address_of(1001), line), "the read of line 1001 blocks");
    expect(kulduvost_damage_total(&guest->device) == KULDUVOST_POISON_ENTRIES, "the damage total is 256 lines");
}

int main(void) {
    struct guest *guest = guest_new();
    if (guest == NULL) {
        fputs("host: no memory, or the header is not this library's\n", stderr);
        return 1;
    }
    one_line_damaged_and_cleared(guest);
    injection_and_its_interrupt(guest);
    label_written_and_read(guest);
    pool_manager_looks(guest);
    guest_handed_on(guest);
    incident(guest);
    guest_free(guest);
    return all_as_expected ? 0 : 1;
}
