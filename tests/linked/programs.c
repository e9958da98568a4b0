/*
 * programs bench | programs probe: the program of document 01 ("Bench program") or of document 10, over the library: records on standard
 * input, a line for each on standard output. Of document 10 the records of the device and of the label store (NW, CM, PC, EV, MD, LT, ES,
 * DT, AR, AB); those of the host's library are unknown marks here.
 *
 * What the formats do not show is checked here after each call, and ends the program by a signal: no byte beside what is lent or the
 * device is written, no byte of a payload or record is, a call that is refused or only reads leaves every byte of the device (where it
 * ended a Sanitize that was due: of the device after its end; a command of the second mailbox ends none, document 02, W-208), and every
 * command but a Set LSA that is not refused leaves every byte of the label area.
 */
#include "kulduvost.h"
#include "lent.h"

/* ---- The formats: which records there are, and how many bytes each has */
struct form {
    const char *mark;
    size_t fixed;     /* bytes with the mark, without the payload or record that a length in it tells of */
    size_t length_at; /* where that length lies, in two bytes; 0: the record has none */
};

struct format {
    const char *name;
    const struct form *forms; /* the last one has no mark */
    size_t most;              /* what a length or room in a record may be at most */
    size_t room_at;           /* where a command's room lies; 0: it has none */
};

static const struct form bench_forms[] = {{"NW", 6, 0}, {"CM", 14, 12}, {"EV", 139, 0}, {"MD", 23, 0}, {"LT", 10, 0}, {NULL, 0, 0}};
static const struct form probe_forms[] = {{"NW", 6, 0}, {"CM", 17, 15}, {"PC", 17, 15}, {"EV", 13, 11}, {"MD", 23, 0}, {"LT", 10, 0},
                                          {"ES", 2, 0}, {"DT", 2, 0},   {"AR", 6, 0},   {"AB", 6, 0},   {NULL, 0, 0}};
static const struct format bench = {"bench", bench_forms, 2048, 0};
static const struct format probe = {"probe", probe_forms, 4096, 12};
enum { LABEL_STORE = 8192 }; /* bytes (document 10, W-206): what AR may lend of it, and where AB ends at most */

static uint64_t number(const uint8_t *from, size_t bytes) {
    uint64_t n = 0;
    while (bytes-- > 0) {
        n = n << 8 | from[bytes];
    }
    return n;
}

static bool marked(const uint8_t *record, const char *mark) { return memcmp(record, mark, 2) == 0; }

static const struct form *form_of(const struct format *format, const uint8_t *record) {
    const struct form *form = format->forms;
    while (form->mark != NULL && !marked(record, form->mark)) {
        form++;
    }
    return form->mark == NULL ? NULL : form;
}

/* Whether the sizes that a record of the format carries, its own length aside, are within their limits. */
static bool within_limits(const struct format *format, const uint8_t *record) {
    if (marked(record, "CM") || marked(record, "PC")) {
        return format->room_at == 0 || number(record + format->room_at, 2) <= format->most;
    }
    if (marked(record, "AR")) {
        return number(record + 2, 4) <= LABEL_STORE;
    }
    return !marked(record, "AB") || number(record + 2, 2) + number(record + 4, 2) <= LABEL_STORE;
}

/* The bytes of the record at the front of `left` bytes; 0 where it is bad: an unknown mark, a cut record, a size over its limit. */
static size_t record_size(const struct format *format, const uint8_t *record, size_t left) {
    const struct form *form = left < 2 ? NULL : form_of(format, record);
    if (form == NULL || left < form->fixed) {
        return 0;
    }
    size_t length = form->length_at == 0 ? 0 : number(record + form->length_at, 2);
    if (length > format->most || !within_limits(format, record) || left - form->fixed < length) {
        return 0;
    }
    return form->fixed + length;
}

/* ---- The device, and what is looked at around each call */
struct tested {
    const struct format *format;
    struct lent device;
    kulduvost_device before;     /* what a call that is refused or only reads must leave */
    bool ends;                   /* the call ends a Sanitize */
    uint8_t labels[LABEL_STORE]; /* the label store of document 10, zero at first; a make leaves it and the size lent */
    size_t label_size;           /* how many of its first bytes are lent with a command: in bench always 4,096 */
};

static kulduvost_device *device_of(struct tested *tested) { return (kulduvost_device *)(void *)tested->device.bytes; }

/* Bytes that no field of a device has (crates/embed/proofs/Header.antt): four of each log, and seven after the media flag. The end of a
 * Sanitize stores logs and media anew, and what it leaves there is not said; every other call leaves these bytes too where it is refused. */
static bool is_hole(size_t i) {
    enum { LOGS = 40, LOG = 1056, HOLE = 1036, HOLE_END = 1040, MEDIA = 7648, SINCE = 7656 };
    size_t in_log = (i - LOGS) % LOG;
    bool of_log = LOGS <= i && i < LOGS + KULDUVOST_EVENT_LOGS * LOG;
    return (of_log && HOLE <= in_log && in_log < HOLE_END) || (MEDIA < i && i < SINCE);
}

static bool as_before(const struct tested *tested, bool holes_too) {
    const uint8_t *before = (const uint8_t *)&tested->before, *after = tested->device.bytes;
    if (memcmp(before, after, KULDUVOST_DEVICE_SIZE) == 0) {
        return true;
    }
    for (size_t i = 0; i < KULDUVOST_DEVICE_SIZE; i++) {
        if (before[i] != after[i] && (holes_too || !is_hole(i))) {
            return false;
        }
    }
    return true;
}

static void before_call(struct tested *tested) {
    memcpy(&tested->before, tested->device.bytes, sizeof tested->before);
    tested->ends = false;
}

static bool disabled(const kulduvost_device *device) { return kulduvost_line_test(device, 0).answer == KULDUVOST_DISABLED; }

/* The same of a call that carries a time, and so first ends a Sanitize that is due (document 02, W-207): what it must leave where it is
 * refused is what a refused call of another kind leaves of a copy, at that time. That one may change nothing else. */
static void before_call_at(struct tested *tested, uint64_t time, bool event_report) {
    const uint8_t no_record[1] = {0};
    before_call(tested);
    uint16_t code = event_report ? kulduvost_media_report(&tested->before, time, 0, 0, 0).code
                                 : kulduvost_event_report(&tested->before, time, 0, no_record, 0).code;
    tested->ends = disabled(device_of(tested)) && !disabled(&tested->before) && kulduvost_event_status(&tested->before).bits == 0;
    if (code == KULDUVOST_SUCCESS || !(tested->ends || as_before(tested, true))) {
        stop("a refused call changed the device, and not by the end of a Sanitize");
    }
}

/* `kept`: the call was refused or only reads, so that the device must be as it was. */
static void after_call(struct tested *tested, bool kept) {
    lent_check(tested->device);
    if (kept && !as_before(tested, !tested->ends)) {
        stop("the device was changed by a call that was refused or only reads");
    }
}

static bool is_refusal(uint16_t code) { return code != KULDUVOST_SUCCESS && code != KULDUVOST_STARTED; }

/* A payload or record: a buffer of its own with exactly its bytes. */
static struct lent lend(const uint8_t *from, size_t length) {
    struct lent lent = lent_new(length);
    memcpy(lent.bytes, from, length);
    return lent;
}

static void take_back(struct lent lent, const uint8_t *from) {
    lent_check(lent);
    if (memcmp(lent.bytes, from, lent.length) != 0) {
        stop("a payload or record was written");
    }
    lent_free(lent);
}

/* The label area: a buffer of its own with the bytes of the store that are lent. The guard after it reaches as far as the store would, so
 * that a byte is seen that a command writes there by the 4,096 bytes that an area should have. */
static struct lent lend_labels(const struct tested *tested) {
    struct lent area = lent_guarded(tested->label_size, LABEL_STORE - tested->label_size + LENT_GUARD);
    memcpy(area.bytes, tested->labels, area.length);
    return area;
}

/* `kept`: the command was refused or is not the one that writes labels, so that the area must be as it was. */
static void take_labels_back(struct tested *tested, struct lent area, bool kept) {
    lent_check(area);
    if (kept && memcmp(tested->labels, area.bytes, area.length) != 0) {
        stop("the label area was changed by a command that was refused or is not Set LSA");
    }
    memcpy(tested->labels, area.bytes, area.length);
    lent_free(area);
}

/* ---- Lines */
static void put_hex(const uint8_t *bytes, size_t length) {
    for (size_t i = 0; i < length; i++) {
        putchar("0123456789abcdef"[bytes[i] >> 4]);
        putchar("0123456789abcdef"[bytes[i] & 15]);
    }
}

static bool all_are(const uint8_t *bytes, size_t length, uint8_t fill) {
    for (size_t i = 0; i < length; i++) {
        if (bytes[i] != fill) {
            return false;
        }
    }
    return true;
}

/* A column of bytes of probe. */
static void put_bytes(const uint8_t *bytes, size_t length) {
    fputs(length > 0 ? " " : " -", stdout);
    put_hex(bytes, length);
}

/* bench: the length and, if there are any, the bytes. probe: the length, the bytes or `-`, and whether the others are still the fill. The
 * line is not ended: a column may follow. */
static void put_reply(const struct tested *tested, const char *mark, uint16_t code, size_t length, struct lent reply, uint8_t fill) {
    if (length > reply.length) {
        stop("a reply is longer than its buffer");
    }
    bool kept = all_are(reply.bytes + length, reply.length - length, fill);
    printf("%s %u %zu", mark, code, length);
    if (tested->format == &bench) {
        if (!kept) {
            stop("a byte after the reply was written");
        }
        fputs(length > 0 ? " " : "", stdout);
        put_hex(reply.bytes, length);
    } else {
        put_bytes(reply.bytes, length);
        printf(" %d", kept);
    }
}

/* bench prints of a refused device-side call the mark and code only. */
static bool only_code(const struct tested *tested, const char *mark, uint16_t code) {
    if (tested->format == &bench && code != KULDUVOST_SUCCESS) {
        printf("%s %u\n", mark, code);
        return true;
    }
    return false;
}

/* ---- Records: each makes its call and prints its line */
/* A make finds memory that is all zero (kulduvost.h). False where bench stops: "A refused NW prints and stops". */
static bool serve_make(struct tested *tested, const uint8_t *record) {
    memset(tested->device.bytes, 0, tested->device.length);
    uint16_t code = kulduvost_make(device_of(tested), (uint16_t)number(record + 2, 2), (uint16_t)number(record + 4, 2));
    after_call(tested, false);
    printf("NW %u\n", code);
    return tested->format == &probe || code == KULDUVOST_SUCCESS;
}

/* A command of either mailbox, as its record has it (document 10: PC has the fields of CM), with what it is lent. */
struct asked {
    uint64_t time;
    uint16_t opcode;
    const uint8_t *payload_at; /* in the record */
    struct lent payload, reply;
    uint8_t fill; /* each byte of the reply buffer before */
};

/* bench carries no room and fill: the least room, and a fill that is not the byte of an unused reply. */
static struct asked ask(const struct tested *tested, const uint8_t *record, size_t size) {
    struct asked asked = {.time = number(record + 2, 8), .opcode = (uint16_t)number(record + 10, 2)};
    asked.fill = tested->format == &bench ? 0xc3 : record[14];
    asked.payload_at = record + (tested->format == &bench ? 14 : 17);
    asked.payload = lend(asked.payload_at, size - (size_t)(asked.payload_at - record));
    asked.reply = lent_new(tested->format == &bench ? KULDUVOST_MAILBOX_SIZE : number(record + 12, 2));
    memset(asked.reply.bytes, asked.fill, asked.reply.length);
    return asked;
}

static void answer(const struct tested *tested, struct asked asked, const char *mark, uint16_t code, size_t length) {
    take_back(asked.payload, asked.payload_at);
    lent_check(asked.reply);
    put_reply(tested, mark, code, length, asked.reply, asked.fill);
    lent_free(asked.reply);
}

/* probe shows the vector too (document 10, W-204). */
static void serve_command(struct tested *tested, const uint8_t *record, size_t size) {
    struct asked asked = ask(tested, record, size);
    struct lent area = lend_labels(tested);
    before_call_at(tested, asked.time, false);
    kulduvost_command_answer done =
        kulduvost_command(device_of(tested), asked.opcode, asked.payload.bytes, asked.payload.length, asked.time, area.bytes, area.length,
                          asked.reply.bytes, asked.reply.length);
    after_call(tested, is_refusal(done.code));
    take_labels_back(tested, area, done.code != KULDUVOST_SUCCESS || asked.opcode != KULDUVOST_SET_LSA);
    answer(tested, asked, "CM", done.code, done.length);
    if (tested->format == &probe) {
        printf(" %u", done.vector);
    }
    putchar('\n');
}

/* "Its commands change nothing and never end a Sanitize" (document 02, W-208): whatever the answer and the time, the device stays. */
static void serve_pool(struct tested *tested, const uint8_t *record, size_t size) {
    struct asked asked = ask(tested, record, size);
    before_call(tested);
    kulduvost_pool_answer done = kulduvost_pool_command(device_of(tested), asked.opcode, asked.payload.bytes, asked.payload.length,
                                                        asked.time, asked.reply.bytes, asked.reply.length);
    after_call(tested, true);
    answer(tested, asked, "PC", done.code, done.length);
    putchar('\n');
}

static void serve_event(struct tested *tested, const uint8_t *record, size_t size) {
    const uint8_t *bytes_at = record + (tested->format == &bench ? 11 : 13);
    struct lent bytes = lend(bytes_at, size - (size_t)(bytes_at - record));
    uint64_t time = number(record + 2, 8);
    before_call_at(tested, time, true);
    kulduvost_event_answer told = kulduvost_event_report(device_of(tested), time, record[10], bytes.bytes, bytes.length);
    after_call(tested, is_refusal(told.code));
    take_back(bytes, bytes_at);
    if (!only_code(tested, "EV", told.code)) {
        printf("EV %u %d", told.code, told.stored);
        if (tested->format == &probe) {
            printf(" %u", told.vector);
        }
        putchar('\n');
    }
}

static void serve_media(struct tested *tested, const uint8_t *record) {
    uint64_t time = number(record + 2, 8);
    before_call_at(tested, time, false);
    kulduvost_media_answer told =
        kulduvost_media_report(device_of(tested), time, number(record + 10, 8), (uint32_t)number(record + 18, 4), record[22]);
    after_call(tested, is_refusal(told.code));
    if (!only_code(tested, "MD", told.code)) {
        printf("MD %u %u %u\n", told.code, told.stored, told.dropped);
    }
}

static void serve_line(struct tested *tested, const uint8_t *record) {
    before_call(tested);
    kulduvost_line_answer told = kulduvost_line_test(device_of(tested), number(record + 2, 8));
    after_call(tested, true);
    if (!only_code(tested, "LT", told.code)) {
        printf("LT %u %u %u\n", told.code, told.answer, told.type);
    }
}

static void serve_status(struct tested *tested) {
    before_call(tested);
    kulduvost_event_status_answer told = kulduvost_event_status(device_of(tested));
    after_call(tested, true);
    printf("ES %u %u %u\n", told.bits, told.waiting, told.highest);
}

static void serve_total(struct tested *tested) {
    before_call(tested);
    uint64_t total = kulduvost_damage_total(device_of(tested));
    after_call(tested, true);
    printf("DT %llu\n", (unsigned long long)total);
}

static void serve_label_size(struct tested *tested, const uint8_t *record) {
    tested->label_size = number(record + 2, 4);
    printf("AR\n");
}

static void serve_label_bytes(const struct tested *tested, const uint8_t *record) {
    printf("AB");
    put_bytes(tested->labels + number(record + 2, 2), number(record + 4, 2));
    putchar('\n');
}

/* False where nothing more is to be served. */
static bool serve(struct tested *tested, const uint8_t *record, size_t size) {
    if (marked(record, "NW")) {
        return serve_make(tested, record);
    }
    if (marked(record, "CM")) {
        serve_command(tested, record, size);
    } else if (marked(record, "PC")) {
        serve_pool(tested, record, size);
    } else if (marked(record, "EV")) {
        serve_event(tested, record, size);
    } else if (marked(record, "MD")) {
        serve_media(tested, record);
    } else if (marked(record, "LT")) {
        serve_line(tested, record);
    } else if (marked(record, "ES")) {
        serve_status(tested);
    } else if (marked(record, "DT")) {
        serve_total(tested);
    } else if (marked(record, "AR")) {
        serve_label_size(tested, record);
    } else {
        serve_label_bytes(tested, record);
    }
    return true;
}

/* ---- The run */
/* "a first mark other than NW, a later NW" is bad in bench; in probe the first record must be a make. */
static bool may_stand(const struct format *format, const uint8_t *record, bool first) {
    return marked(record, "NW") ? first || format == &probe : !first;
}

static void run(struct tested *tested, const uint8_t *input, size_t length) {
    size_t size;
    for (size_t at = 0; at < length; at += size) {
        size = record_size(tested->format, input + at, length - at);
        if (size == 0 || !may_stand(tested->format, input + at, at == 0)) {
            printf("BAD %zu\n", at);
            return;
        }
        if (!serve(tested, input + at, size)) {
            return;
        }
    }
}

/* All of standard input, in a block of exactly its length. */
static uint8_t *all_input(size_t *length) {
    size_t room = 1u << 16, used = 0, got;
    uint8_t *bytes = malloc(room);
    while (bytes != NULL && (got = fread(bytes + used, 1, room - used, stdin)) > 0) {
        used += got;
        if (used == room) {
            bytes = realloc(bytes, room *= 2);
        }
    }
    bytes = realloc(bytes, used == 0 ? 1 : used);
    if (bytes == NULL || ferror(stdin)) {
        stop("standard input cannot be read");
    }
    *length = used;
    return bytes;
}

int main(int count, char **words) {
    struct tested tested = {.format = NULL, .label_size = KULDUVOST_LABEL_AREA_SIZE};
    if (count == 2) {
        tested.format = strcmp(words[1], bench.name) == 0 ? &bench : strcmp(words[1], probe.name) == 0 ? &probe : NULL;
    }
    if (tested.format == NULL) {
        fputs("programs bench|probe < STREAM\n", stderr);
        return 2;
    }
    size_t length;
    uint8_t *input = all_input(&length);
    tested.device = lent_new(KULDUVOST_DEVICE_SIZE);
    run(&tested, input, length);
    lent_free(tested.device);
    free(input);
    return fflush(stdout) == 0 ? 0 : 1;
}
