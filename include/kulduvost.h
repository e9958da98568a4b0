/*
 * Kulduvost: a CXL Type 3 mailbox device (poison list, event logs, label storage, Sanitize, fifteen commands, and a second mailbox for a
 * pool manager with seven of them) behind a pointer. C11 and C++11, x86-64 System V. Link with libkulduvost.a; `tests/library OUT` writes
 * both. The rules are those of the project's documents 01 and 02 (the requests that have landed); their words stand below.
 *
 * What the caller owes, and nothing checks:
 *  - A device lies in memory of KULDUVOST_DEVICE_SIZE bytes, aligned to KULDUVOST_DEVICE_ALIGN, that is all zero before kulduvost_make
 *    (calloc does). After kulduvost_make it is changed by these calls alone.
 *  - One call at a time on a device, those that only read it included: a pool manager's thread takes turns with the guest's, by the
 *    caller's lock. Different devices are independent: there is no global state, no lock and no allocation.
 *  - The device and what a call is lent (payload or record, label area, reply buffer) do not overlap, and nobody else uses them during the
 *    call.
 *  - The label area is the caller's, who keeps it and lends it with each command: KULDUVOST_LABEL_AREA_SIZE bytes, whatever they hold. The
 *    library keeps none, and make knows of none: labels last where the same area is lent each time and nobody writes it between.
 *  - After a Sanitize answered KULDUVOST_STARTED the caller wipes the memory that the device stands for, and the label area. The library
 *    writes neither, and the end of the Sanitize does not wait for it: what is not wiped by then can be read.
 *  - Lengths are true, and a pointer is not null even where its length is 0.
 *
 * What every call promises:
 *  - It ends and gives a defined answer, whatever its arguments.
 *  - A refusal (code neither 0 nor KULDUVOST_STARTED) leaves the device, every byte of the reply buffer and every byte of the label area as
 *    they were; a make alone leaves a new device, as said there. Where the call first ended a Sanitize (below) that end stays: the device
 *    as it was is the one after it. Refusals are listed in their order: the first that applies is given.
 *  - A damaged record blocks, never permits: serve a read only where kulduvost_line_test gives code KULDUVOST_SUCCESS with answer
 *    KULDUVOST_CLEAN. Any other pair blocks, KULDUVOST_DISABLED too.
 *  - The answer of a call that stores an event says which interrupt to raise (enum kulduvost_vector). The library raises none itself and
 *    says it once: the caller raises it after the call.
 *
 * Sanitize, before a guest is handed on (document 02, W-207):
 *  - KULDUVOST_SANITIZE disables media, from the time of that command on and for as long as is listed at the opcode. Its KULDUVOST_STARTED
 *    is no refusal: the device has changed.
 *  - It ends by the caller's times alone. The first later kulduvost_command, event report or media report whose time is at least that far
 *    past the beginning first ends it, before any of its own checks: all five logs are emptied with their overflow counts and times, next
 *    handles go on, and media is enabled. Nothing else changes: clock, interrupt policy and poison list stay, and a damaged line is damaged
 *    after it. Then the call is answered as on any device. A time before the beginning ends nothing, and an end past 2^64 - 1 never comes.
 *  - Line test, event status and damage total carry no time and end nothing, nor does a pool command, whatever its time (document 02,
 *    W-208). So lines are answered KULDUVOST_DISABLED, and no read may be served, until a kulduvost_command or a report has ended it,
 *    however late it is: a host that does not wait for its guest's next command makes one, such as a Get Timestamp.
 *  - A log that is emptied, by this end or by a Clear, shows no record any more; the bytes of its records stay in the device's memory until
 *    others take their place. A host that hands that memory on, and not only the guest, makes a new device in it, zeroed first.
 *  - Until then another Sanitize is refused with KULDUVOST_BUSY, and Inject Poison, Clear Poison, Get LSA and Set LSA with
 *    KULDUVOST_MEDIA_DISABLED; everything else works as ever, Get Poison List, the reports and every pool command too.
 *
 * `time` is the caller's clock in nanoseconds. It may stand still or go back; no answer about a line depends on it, but for when a Sanitize
 * ends.
 * Time and stack that a call takes are measured (docs/MEASURES.md), not promised: look there before you call on a small stack.
 */
#ifndef KULDUVOST_H
#define KULDUVOST_H

#include <stdbool.h>
#include <stddef.h>
#include <stdint.h>

#if !defined(__x86_64__) || defined(__ILP32__) || defined(_WIN32)
#error "libkulduvost.a is for x86-64 with the System V calling convention"
#endif

#ifdef __cplusplus
#define KULDUVOST_ASSERT(what) static_assert(what, #what)
#define KULDUVOST_ALIGN(bytes) alignas(bytes)
#define KULDUVOST_ALIGN_OF(type) alignof(type)
extern "C" {
#else
#define KULDUVOST_ASSERT(what) _Static_assert(what, #what)
#define KULDUVOST_ALIGN(bytes) _Alignas(bytes)
#define KULDUVOST_ALIGN_OF(type) _Alignof(type)
#endif

/* ---- Sizes (document 01, "Numbers") */
#define KULDUVOST_DEVICE_SIZE 7672       /* bytes of a device */
#define KULDUVOST_DEVICE_ALIGN 8         /* and their alignment */
#define KULDUVOST_LINE_SIZE 64           /* bytes of a line */
#define KULDUVOST_UNIT_LINES 4194304     /* lines of a unit, 256 MiB */
#define KULDUVOST_UNITS_MAX 1023         /* volatile plus persistent units: 1 to this */
#define KULDUVOST_MAILBOX_SIZE 2048      /* the longest payload and reply; the least room for a reply */
#define KULDUVOST_EVENT_LOGS 5           /* logs 0 to 4 */
#define KULDUVOST_EVENT_RECORD_SIZE 128  /* bytes of an event record */
#define KULDUVOST_EVENT_LOG_RECORDS 8    /* records that a log has room for */
#define KULDUVOST_POISON_ENTRIES 256     /* entries that the poison list has room for */
#define KULDUVOST_LABEL_AREA_SIZE 4096   /* bytes of the label area, no fewer and no more (document 02, W-206) */

/* ---- Return numbers */
enum kulduvost_code {
    KULDUVOST_SUCCESS = 0x0000,
    KULDUVOST_STARTED = 0x0001, /* of a Sanitize alone, and no refusal (document 02, W-207) */
    KULDUVOST_INVALID_INPUT = 0x0002,
    KULDUVOST_UNSUPPORTED_OPCODE = 0x0003,
    KULDUVOST_BUSY = 0x0006,
    KULDUVOST_MEDIA_DISABLED = 0x0007,
    KULDUVOST_INVALID_HANDLE = 0x000e,
    KULDUVOST_INVALID_PHYSICAL_ADDRESS = 0x000f,
    KULDUVOST_INJECT_POISON_LIMIT = 0x0010,
    KULDUVOST_UNSUPPORTED_MAILBOX = 0x0015, /* of a pool command alone: the device has the opcode, that mailbox has not (W-208) */
    KULDUVOST_INVALID_PAYLOAD_LENGTH = 0x0016,
    KULDUVOST_INVALID_LOG = 0x0017,
    KULDUVOST_REPLY_BUFFER_TOO_SMALL = 0x0100 /* house: reply buffer under 2,048 bytes, or label area not 4,096 */
};

/* ---- Opcodes, each with its payload (field and bytes), the command's own refusals in their order, and its reply on Success. Those marked
 * "Pool too" are the seven that kulduvost_pool_command has as well. */
enum kulduvost_opcode {
    /* Pool too. log 1. Log above 4: 0002h. Reply: 32 bytes, then 128 for each record held, oldest first. */
    KULDUVOST_GET_EVENT_RECORDS = 0x0100,
    /* log 1, flags 1, count n 1, reserved 3, n handles of 2. Length not 6 + 2n: 0016h; a flag bit 1 to 7 set or a reserved byte not zero:
     * 0002h; log above 4: 0002h; Clear All (flag bit 0) with n not 0 or overflow count 0: 0002h; without it, handle i not that of the
     * i-th oldest record: 000Eh. No reply. */
    KULDUVOST_CLEAR_EVENT_RECORDS = 0x0101,
    /* Pool too. No payload. Reply: a setting of 1 byte for each of the five logs. */
    KULDUVOST_GET_EVENT_INTERRUPT_POLICY = 0x0102,
    /* a byte for each of logs 0 to 3, or 0 to 4; its low two bits are the mode, 0 or 1, and its other bits are free. A mode of 2 or 3 in any
     * of them: 0002h, and no log's setting changes. The interrupts of a log are enabled where its mode is 1 and disabled where it is 0;
     * four bytes leave log 4 as it was. All start disabled. A log that is enabled while it holds records raises nothing for them: its
     * next vector comes when it has been emptied and a record is stored. No reply. */
    KULDUVOST_SET_EVENT_INTERRUPT_POLICY = 0x0103,
    /* Pool too. No payload. Reply: the device time, 8. */
    KULDUVOST_GET_TIMESTAMP = 0x0300,
    /* device time 8. No reply. */
    KULDUVOST_SET_TIMESTAMP = 0x0301,
    /* Pool too. No payload. Reply: 28 bytes that name the Command Effects Log, with its size. */
    KULDUVOST_GET_SUPPORTED_LOGS = 0x0400,
    /* Pool too. identifier 16, offset 4, length 4. Other identifier: 0017h; length over 2,048, or offset plus length over the log's 60
     * bytes, 28 for a pool command: 0002h. Reply: those bytes of the Command Effects Log. */
    KULDUVOST_GET_LOG = 0x0401,
    /* Pool too. No payload. Reply: 69 bytes. */
    KULDUVOST_IDENTIFY = 0x4000,
    /* offset 4, length 4. Media disabled: 0007h; length over 2,048, or offset plus length over 4,096: 0002h. Reply: those bytes of the
     * label area. */
    KULDUVOST_GET_LSA = 0x4102,
    /* offset 4, reserved 4, data. Payload under 8 bytes: 0016h; media disabled: 0007h; a reserved byte not zero, or offset plus the length
     * of the data over 4,096: 0002h. Success writes the data to the label area from the offset on, and no other byte of the area; without
     * data, no byte. No reply.
     * After a Set, where all are accepted and nobody writes the area between, a Get of the same range gives the data back, and a Get of a
     * range apart from it gives what it gave just before the Set. */
    KULDUVOST_SET_LSA = 0x4103,
    /* Pool too. address 8, lines 8. Unaligned: 0002h; end past the device: 000Fh. Reply: 32 bytes, then 16 for each of up to 126
     * records. */
    KULDUVOST_GET_POISON_LIST = 0x4300,
    /* address 8. Media disabled: 0007h; unaligned: 0002h; outside: 000Fh; line not covered and 256 entries held: 0010h. No reply. An
     * injection that adds an entry also reports an event to log 0: 128 zero bytes with length 128 at byte 16 and the address at bytes 48 to
     * 55, then handle and device time as in every event report; the answer carries the vector of this report. If log 0 is full the event is
     * counted as overflow and the injection stands, with Success and no vector. A line that is covered already is answered Success and
     * reports no event. */
    KULDUVOST_INJECT_POISON = 0x4301,
    /* address 8, data 64. Media disabled: 0007h; unaligned: 0002h; outside: 000Fh. No reply. After Success the caller writes payload bytes
     * 8 to 71 to the line. */
    KULDUVOST_CLEAR_POISON = 0x4302,
    /* No payload. Media disabled already: 0006h. Otherwise 0001h, started, with no reply: media is disabled from the time of this command
     * on, for 4 seconds up to 512 MiB (two units, of either kind), 8 to 1 GiB, 15 to 2, 30 to 4, 60 to 8, 120 to 16, 240 to 32, 480 to 64,
     * 900 to 128 and 1,800 to 256 GiB. At a time at which one is due to end it first ends that one, and starts another. */
    KULDUVOST_SANITIZE = 0x4400
};

/* ---- Event logs */
enum kulduvost_log {
    KULDUVOST_LOG_INFO = 0,
    KULDUVOST_LOG_WARNING = 1,
    KULDUVOST_LOG_FAILURE = 2,
    KULDUVOST_LOG_FATAL = 3,
    KULDUVOST_LOG_DYNAMIC_CAPACITY = 4,
    KULDUVOST_LOG_NONE = 5 /* event status: no log is waiting */
};

/* ---- Interrupt vectors: the message number (MSI or MSI-X) of the device that an answer tells the caller to raise. It is the log's vector
 * if a record was stored by this call, the log's interrupts are enabled (KULDUVOST_SET_EVENT_INTERRUPT_POLICY) and the log went from empty
 * to one record, emptied perhaps by the Sanitize that the call first ended; otherwise none. So a guest that empties a log at its interrupt
 * is told of the next record. */
enum kulduvost_vector {
    KULDUVOST_VECTOR_NONE = 0, /* raise nothing */
    KULDUVOST_VECTOR_INFO = 2,
    KULDUVOST_VECTOR_WARNING = 3,
    KULDUVOST_VECTOR_FAILURE = 4,
    KULDUVOST_VECTOR_FATAL = 5,
    KULDUVOST_VECTOR_DYNAMIC_CAPACITY = 2 /* log 4 uses vector 2, as log 0 does: look at both logs */
};

/* ---- Answers of the line test */
enum kulduvost_line {
    KULDUVOST_CLEAN = 0,
    KULDUVOST_DAMAGED = 1,
    KULDUVOST_UNKNOWN = 2,
    KULDUVOST_DISABLED = 3 /* a Sanitize was started and not ended: serve no read (document 02, W-207) */
};

/* ---- A device: put it into a struct, an array or memory of your own. Its bytes are the library's. */
typedef struct kulduvost_device {
    KULDUVOST_ALIGN(KULDUVOST_DEVICE_ALIGN) unsigned char opaque[KULDUVOST_DEVICE_SIZE];
} kulduvost_device;

/* ---- What the calls answer */
typedef struct kulduvost_command_answer {
    uint16_t code;
    uint8_t vector; /* to raise; KULDUVOST_VECTOR_NONE where refused and for every command but Inject Poison */
    size_t length;  /* bytes of the reply; 0 where refused or started */
} kulduvost_command_answer;

typedef struct kulduvost_pool_answer {
    uint16_t code;
    size_t length; /* bytes of the reply; 0 where refused */
} kulduvost_pool_answer;

typedef struct kulduvost_event_answer {
    uint16_t code;
    bool stored;    /* false where refused */
    uint8_t vector; /* to raise; KULDUVOST_VECTOR_NONE where refused or not stored */
} kulduvost_event_answer;

typedef struct kulduvost_media_answer {
    uint16_t code;
    uint32_t stored;  /* lines; 0 where refused */
    uint32_t dropped; /* lines; 0 where refused */
} kulduvost_media_answer;

typedef struct kulduvost_line_answer {
    uint16_t code;
    uint8_t answer; /* KULDUVOST_CLEAN, _DAMAGED, _UNKNOWN or _DISABLED; _UNKNOWN where refused */
    uint8_t type;   /* of the damage: 0, 1, 2, 3 (injected) or 7; 0 where not damaged */
} kulduvost_line_answer;

typedef struct kulduvost_event_status_answer {
    uint32_t bits;    /* bit k is set exactly when log k holds a record */
    uint32_t waiting; /* the number of logs waiting */
    uint32_t highest; /* the highest-numbered one waiting, KULDUVOST_LOG_NONE if none */
} kulduvost_event_status_answer;

/* ---- Calls */

/*
 * Makes a new device of so many units. Refused: a total outside 1 to 1,023, 0002h. The device beside a refusal is the new one of one
 * volatile unit: make starts a device, and is never called on one in use.
 */
uint16_t kulduvost_make(kulduvost_device *device, uint16_t volatile_units, uint16_t persistent_units);

/*
 * A command of the mailbox, a due Sanitize ended first. On Success of length n the first n bytes of the reply buffer are written, the others
 * stay; 0001h of a Sanitize writes none. A Set LSA writes its data to the label area; no other command writes the area. The vector to raise
 * is that of the event that an Inject Poison reports, none for the other commands. Refused: reply room under 2,048 bytes or label area not
 * 4,096 bytes, whatever the command, 0100h; payload over 2,048 bytes, 0016h; opcode not one of the fifteen, 0003h; payload length not the
 * command's, 0016h; then the command's own checks, as listed at its opcode.
 */
kulduvost_command_answer kulduvost_command(kulduvost_device *device, uint16_t opcode, const uint8_t *payload, size_t payload_length,
                                           uint64_t time, uint8_t *area, size_t area_size, uint8_t *reply, size_t reply_room);

/*
 * A command of the second mailbox, the pool manager's, which looks at the same logs and list (document 02, W-208). It is lent no label area,
 * changes nothing of the device, ends no Sanitize, also not a due one, and raises no vector: any number of them, at whatever times, put
 * between the other calls, alter no answer of those. It has the seven commands marked "Pool too". Answer and reply are those that
 * kulduvost_command would give on the device as it stands, a due Sanitize not ended first, save that the Command Effects Log lists those
 * seven alone: 28 bytes, and Get Supported Logs gives that size. On Success of length n the first n bytes of the reply buffer are written,
 * the others stay. Refused: reply room under 2,048 bytes, 0100h; payload over 2,048 bytes, 0016h; opcode not one of the fifteen, 0003h; one
 * of the fifteen and not of the seven, 0015h, whatever its payload; payload length not the command's, 0016h; then the command's own checks,
 * as listed at its opcode.
 */
kulduvost_pool_answer kulduvost_pool_command(const kulduvost_device *device, uint16_t opcode, const uint8_t *payload,
                                             size_t payload_length, uint64_t time, uint8_t *reply, size_t reply_room);

/*
 * Event report, a due Sanitize ended first. Below eight held, the record is stored last in the log, with bytes 20 and 21 set to the log's
 * next handle and bytes 24 to 31 to the device time. With eight held nothing is stored: the overflow count grows, staying at 65,535, and
 * Success answers not stored. The vector to raise is the log's if its interrupts are enabled and the log was empty before, otherwise none.
 * Refused: record not 128 bytes, 0016h; log above 4, 0002h.
 */
kulduvost_event_answer kulduvost_event_report(kulduvost_device *device, uint64_t time, uint8_t log, const uint8_t *record,
                                              size_t record_length);

/*
 * Media report: lines from an address on are damaged, a due Sanitize ended first. The lines that no entry covers form maximal runs;
 * ascending, each run becomes an entry of that type while fewer than 256 are held; the other runs are dropped, which sets the overflow flag
 * for good. Covered lines keep their entry. Refused: type not 0, 1, 2 or 7, 0002h; lines 0, 0002h; address not a multiple of 64, 0002h; end
 * past the device, 000Fh.
 */
kulduvost_media_answer kulduvost_media_report(kulduvost_device *device, uint64_t time, uint64_t address, uint32_t lines, uint8_t type);

/*
 * Line test, to be asked before a read of the line is served. Disabled with type 0 while media is disabled, whatever the line; else Damaged
 * with the type if an entry covers the line; else, with type 0, Unknown if the overflow flag is set; else Clean. Refused: address not a
 * multiple of 64, 0002h; outside the device, 000Fh; both answer Unknown with type 0. A line of an accepted report or injection, and not
 * cleared since, is never answered Clean. It ends no Sanitize.
 */
kulduvost_line_answer kulduvost_line_test(const kulduvost_device *device, uint64_t address);

/* Event status: which logs hold a record. Never refused. It ends no Sanitize. */
kulduvost_event_status_answer kulduvost_event_status(const kulduvost_device *device);

/* Damage total: the sum of entry lengths in lines, worked out at each call; dropped lines are not in it. Never refused. It ends no
 * Sanitize. */
uint64_t kulduvost_damage_total(const kulduvost_device *device);

/* The bytes of a device in the library that is linked: KULDUVOST_DEVICE_SIZE, or header and library are not of the same build. */
size_t kulduvost_device_size(void);

/* ---- Sizes and offsets of what crosses the boundary: theorems of crate embed (proofs/Header.antt), to which this holds the compiler. */
KULDUVOST_ASSERT(sizeof(kulduvost_device) == 7672);
KULDUVOST_ASSERT(KULDUVOST_ALIGN_OF(kulduvost_device) == 8);
KULDUVOST_ASSERT(sizeof(kulduvost_command_answer) == 16);
KULDUVOST_ASSERT(offsetof(kulduvost_command_answer, code) == 0);
KULDUVOST_ASSERT(offsetof(kulduvost_command_answer, vector) == 2);
KULDUVOST_ASSERT(offsetof(kulduvost_command_answer, length) == 8);
KULDUVOST_ASSERT(sizeof(kulduvost_pool_answer) == 16);
KULDUVOST_ASSERT(offsetof(kulduvost_pool_answer, code) == 0);
KULDUVOST_ASSERT(offsetof(kulduvost_pool_answer, length) == 8);
KULDUVOST_ASSERT(sizeof(kulduvost_event_answer) == 4);
KULDUVOST_ASSERT(offsetof(kulduvost_event_answer, code) == 0);
KULDUVOST_ASSERT(offsetof(kulduvost_event_answer, stored) == 2);
KULDUVOST_ASSERT(offsetof(kulduvost_event_answer, vector) == 3);
KULDUVOST_ASSERT(sizeof(kulduvost_media_answer) == 12);
KULDUVOST_ASSERT(offsetof(kulduvost_media_answer, code) == 0);
KULDUVOST_ASSERT(offsetof(kulduvost_media_answer, stored) == 4);
KULDUVOST_ASSERT(offsetof(kulduvost_media_answer, dropped) == 8);
KULDUVOST_ASSERT(sizeof(kulduvost_line_answer) == 4);
KULDUVOST_ASSERT(offsetof(kulduvost_line_answer, code) == 0);
KULDUVOST_ASSERT(offsetof(kulduvost_line_answer, answer) == 2);
KULDUVOST_ASSERT(offsetof(kulduvost_line_answer, type) == 3);
KULDUVOST_ASSERT(sizeof(kulduvost_event_status_answer) == 12);
KULDUVOST_ASSERT(offsetof(kulduvost_event_status_answer, bits) == 0);
KULDUVOST_ASSERT(offsetof(kulduvost_event_status_answer, waiting) == 4);
KULDUVOST_ASSERT(offsetof(kulduvost_event_status_answer, highest) == 8);

#undef KULDUVOST_ASSERT
#undef KULDUVOST_ALIGN
#undef KULDUVOST_ALIGN_OF

#ifdef __cplusplus
}
#endif
#endif
