// What calls come back with, against the archive: each result by its name in windgusset.h, and the answer structs against what the
// answer message itself says. The structs are looked at where the calling convention has them written, with memory around them.
#include "common.h"

static struct table t;

// By the calling convention of x86-64 a struct of 24 bytes is written where a first hidden pointer says, and the pointer comes back.
extern void *handle_at(void *to, struct windgusset_record *records, size_t count, uint8_t *store, size_t size, uint64_t clock,
                       uint32_t number, const uint8_t *request, size_t request_length, uint8_t *answer,
                       size_t answer_size) __asm__("windgusset_handle");
extern void *read_at(void *to, const struct windgusset_record *records, size_t count, const uint8_t *store, size_t size,
                     const uint8_t *address, size_t address_length, const uint8_t *name, size_t name_length,
                     uint64_t clock) __asm__("windgusset_read");

struct told_handled { struct windgusset_handled it; uint8_t behind[24]; };
struct told_state { struct windgusset_state it; uint8_t behind[24]; };

static void holds_untouched(const uint8_t *bytes, size_t count, const char *which) {
    for (size_t i = 0; i < count; i++) holds(bytes[i] == UNTOUCHED, "%s: byte %zu was written", which, i);
}

// The number behind a field's name in the message, in a base; 0 where the field is not there.
static unsigned long field(const char *message, const char *name, int base) {
    const char *at = strstr(message, name);
    return at ? strtoul(at + strlen(name), NULL, base) : 0;
}

// The message in the answer buffer, ended where the buffer is untouched: no byte of a message is 0xEE here.
static const char *message(void) {
    static char text[sizeof answer + 1];
    size_t n = 0;
    while (n < sizeof answer && answer[n] != UNTOUCHED) n++;
    memcpy(text, answer, n);
    text[n] = 0;
    return text;
}

// The written request is answered with a status, and the struct says what the message says.
static void answers(unsigned status, uint64_t clock, unsigned long seconds) {
    struct told_handled told;
    const char *said;
    part("answer %u", status);
    memset(&told, UNTOUCHED, sizeof told);
    memset(answer, UNTOUCHED, sizeof answer);
    holds(handle_at(&told, t.records, t.count, t.store, size_of(&t), clock, 0xDEADBEEF, request, request_length, answer,
                    sizeof answer) == &told,
          "pointer");
    said = message();
    holds(status == field(said, "SIP/2.0 ", 10), "the message says %.12s", said);
    holds(told.it.status == status, "status %u", told.it.status);
    holds(told.it.result == WINDGUSSET_DONE, "result %u", told.it.result);
    holds(told.it.length == strlen(said), "length %zu", told.it.length);
    holds(told.it.tag == field(said, "SIP-ETag: ", 16), "tag %08x", told.it.tag);
    holds((status == 200) == (told.it.tag != 0), "tag %08x", told.it.tag);
    holds(told.it.seconds == field(said, "\r\nExpires: ", 10) + field(said, "Min-Expires: ", 10) + field(said, "Retry-After: ", 10),
          "seconds %llu", (unsigned long long)told.it.seconds);
    holds(told.it.seconds == seconds, "seconds %llu", (unsigned long long)told.it.seconds);
    holds(strstr(said, "\r\nTo: t;tag=deadbeef\r\n") != NULL, "number");
    holds(strlen(said) > 4 && !strcmp(said + strlen(said) - 4, "\r\n\r\n"), "end of the message");
    holds_untouched(told.behind, sizeof told.behind, "behind the struct");
    holds_untouched(answer + strlen(said), sizeof answer - strlen(said), "behind the message");
}

// Each status of the paper's table, at one address that has one live publication of presence.
static void statuses(void) {
    char lines[128];
    uint32_t tag;
    opened(&t, 2);
    added(&t, "ann", 0x01020304, 0);
    tag = published(&t, "ann", 0, 3600, 1, 1000).tag;
    write_request("OPTIONS", "ann", "", 0), answers(405, 1000, 0);
    write_request("PUBLISH", "ann", "Expires: x\r\n", 0), answers(400, 1000, 0);
    write_request("PUBLISH", "bo", "", 0), answers(404, 1000, 0);
    write_request("PUBLISH", "ann", "Event: none\r\n", 0), answers(489, 1000, 0);
    write_request("PUBLISH", "ann", "Event: presence\r\n", 0), answers(500, 999, 0);
    write_request("PUBLISH", "ann", "Event: presence\r\nSIP-If-Match: 0\r\n", 0), answers(412, 1000, 0);
    write_request("PUBLISH", "ann", "Event: message-summary\r\nExpires: 299\r\n", 0), answers(423, 1000, 300);
    write_request("PUBLISH", "ann", "Event: presence\r\n", 513), answers(413, 1000, 0);
    write_request("PUBLISH", "ann", "Event: presence\r\nContent-Type: text/plain\r\n", 1), answers(415, 1000, 0);
    snprintf(lines, sizeof lines, "Event: presence\r\nSIP-If-Match: %08x\r\nExpires: 700\r\n", tag);
    write_request("PUBLISH", "ann", lines, 0), answers(200, 1001, 700);
    for (int k = 1; k < WINDGUSSET_SLOTS; k++) published(&t, "ann", 2, 3600, 1, 1001);
    write_request("PUBLISH", "ann", "Event: dialog\r\nContent-Type: application/dialog-info+xml\r\n", 1), answers(503, 1100, 601);
}

// A call of handle that gives a result and no message; sizes as lent.
static void silent(unsigned result, size_t count, size_t size, uint64_t clock, size_t length, size_t room) {
    struct told_handled told;
    part("result %u of handle", result);
    memset(&told, UNTOUCHED, sizeof told);
    memset(answer, UNTOUCHED, sizeof answer);
    handle_at(&told, t.records, count, t.store, size, clock, 1, request, length, answer, room);
    holds(told.it.result == result, "result %u", told.it.result);
    holds(told.it.length == 0 && told.it.seconds == 0 && told.it.tag == 0 && told.it.status == 0, "the other fields");
    holds_untouched(told.behind, sizeof told.behind, "behind the struct");
    holds_untouched(answer, sizeof answer, "answer");
}

// Each result of handle; the next that applies is met as well, where one call can.
static void silences(void) {
    const size_t size = 2 * WINDGUSSET_STORE_BYTES, room = WINDGUSSET_ANSWER_BYTES, longest = WINDGUSSET_REQUEST_BYTES;
    const uint64_t limit = WINDGUSSET_CLOCK_LIMIT;
    opened(&t, 2);
    memset(request, 'x', sizeof request);
    t.records[1].used = 2;
    silent(WINDGUSSET_BUFFER_TOO_SMALL, 0, size, limit + 1, longest + 1, room - 1);
    silent(WINDGUSSET_WRONG_SIZES, 0, 0, limit + 1, longest + 1, room);
    silent(WINDGUSSET_WRONG_SIZES, 2, size - 1, limit + 1, longest + 1, room);
    silent(WINDGUSSET_WRONG_SIZES, 2, size + 1, limit + 1, longest + 1, room);
    silent(WINDGUSSET_WRONG_SIZES, MOST + 1, sizeof t.store + WINDGUSSET_STORE_BYTES, limit + 1, longest + 1, room);
    silent(WINDGUSSET_REQUEST_TOO_LONG, 2, size, limit + 1, longest + 1, room);
    silent(WINDGUSSET_CLOCK_ABOVE_LIMIT, 2, size, limit + 1, longest, room);
    silent(WINDGUSSET_NOT_SOUND, 2, size, limit, longest, room);
    t.records[1].used = 0;
    silent(WINDGUSSET_UNREADABLE, 2, size, limit, longest, room);
    silent(WINDGUSSET_UNREADABLE, 2, size, limit, 0, room);
    write_request("ACK", "ann", "", 0);
    silent(WINDGUSSET_UNREADABLE, 2, size, limit, request_length, room);
}

static void numbers(unsigned given, unsigned expected, const char *name) {
    part("%s", name);
    holds(given == expected, "gave %u", given);
}

// Each result of opening and adding.
static void tables(void) {
    const char *longest = "0123456789012345678901234567890123456789012345678901234567890123", *longer =
        "01234567890123456789012345678901234567890123456789012345678901234";
    numbers(opened(&t, 0), WINDGUSSET_WRONG_SIZES, "opening no record");
    numbers(windgusset_open(t.records, 1, t.store, WINDGUSSET_STORE_BYTES - 1), WINDGUSSET_WRONG_SIZES, "opening with a short store");
    numbers(opened(&t, 2), WINDGUSSET_DONE, "opening");
    t.count = 0;
    numbers(added(&t, "", 0, 0), WINDGUSSET_WRONG_SIZES, "adding to no record");
    t.count = 2;
    t.records[1].used = 255;
    numbers(added(&t, "", 0, 0), WINDGUSSET_NOT_SOUND, "adding beside what is not sound");
    t.records[1].used = 0;
    numbers(added(&t, "", 0, 0), WINDGUSSET_ADDRESS_MALFORMED, "adding nothing");
    numbers(added(&t, longer, 0, 0), WINDGUSSET_ADDRESS_MALFORMED, "adding 65 bytes");
    numbers(added(&t, longest, 0, 0), WINDGUSSET_DONE, "adding 64 bytes");
    numbers(added(&t, longest, 0, 0), WINDGUSSET_ADDRESS_THERE, "adding again");
    numbers(added(&t, "ann", 0, 0), WINDGUSSET_DONE, "adding another");
    numbers(added(&t, "ann", 0, 0), WINDGUSSET_ADDRESS_THERE, "adding again, no room");
    numbers(added(&t, "bo", 0, 0), WINDGUSSET_NO_UNUSED_RECORD, "adding where no room is");
}

// A reading gives a result, which of the three is shown, and where it lies.
static void reads(const char *name, const char *address, const char *package, uint64_t clock, unsigned result, unsigned which,
                  size_t position, size_t length) {
    struct told_state told;
    part("reading %s", name);
    memset(&told, UNTOUCHED, sizeof told);
    holds(read_at(&told, t.records, t.count, t.store, size_of(&t), (const uint8_t *)address, strlen(address), (const uint8_t *)package,
                  strlen(package), clock) == &told,
          "pointer");
    holds(told.it.result == result, "result %u", told.it.result);
    holds(told.it.shown == which, "shown %u", told.it.shown);
    holds(told.it.position == position && told.it.length == length, "position %zu, length %zu", told.it.position, told.it.length);
    holds_untouched(told.behind, sizeof told.behind, "behind the struct");
}

// Each result of reading. The second address has its newest body in slot 2.
static void readings(void) {
    opened(&t, 2);
    added(&t, "ann", 0, 0);
    added(&t, "bo", 0, 0);
    published(&t, "bo", 0, 3600, 1, 100);
    published(&t, "bo", 0, 3600, 2, 100);
    published(&t, "bo", 0, 100, 300, 100);
    reads("the newest", "bo", "presence", 199, WINDGUSSET_DONE, 1, WINDGUSSET_STORE_BYTES + 2 * WINDGUSSET_BODY_BYTES, 300);
    reads("when the newest is over", "bo", "presence", 200, WINDGUSSET_DONE, 1, WINDGUSSET_STORE_BYTES + WINDGUSSET_BODY_BYTES, 2);
    reads("another package", "bo", "dialog", 200, WINDGUSSET_DONE, 2, 0, 0);
    reads("an address with none", "ann", "presence", 0, WINDGUSSET_DONE, 2, 0, 0);
    reads("an unknown address", "cy", "presence", 200, WINDGUSSET_NOT_KNOWN, 0, 0, 0);
    reads("an unknown package", "bo", "Presence", 200, WINDGUSSET_NOT_KNOWN, 0, 0, 0);
    reads("an early clock", "bo", "presence", 99, WINDGUSSET_CLOCK_BELOW_LATEST, 0, 0, 0);
    reads("a late clock", "bo", "presence", WINDGUSSET_CLOCK_LIMIT + 1, WINDGUSSET_CLOCK_ABOVE_LIMIT, 0, 0, 0);
    t.records[0].used = 2;
    reads("what is not sound", "bo", "presence", 200, WINDGUSSET_NOT_SOUND, 0, 0, 0);
    t.count = 0;
    reads("no record", "bo", "presence", 200, WINDGUSSET_WRONG_SIZES, 0, 0, 0);
}

int main(void) {
    statuses();
    silences();
    tables();
    readings();
    return told();
}
