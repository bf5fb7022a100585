// What the programs of this folder share: parts that hold or fail, a table with memory around it, and requests.
#include <stdarg.h>
#include <stdio.h>
#include <stdlib.h>
#include <string.h>

#include "windgusset.h"

#define MOST WINDGUSSET_MOST_RECORDS
#define STEP 2654435769u     // the paper's step between tags
#define INVERSE 340573321u   // STEP times this is 1, kept to 32 bits
#define UNTOUCHED 0xEE       // what memory holds before a call that is to leave it alone

static int passed, failed, open_part, part_failed;
static char part_name[128];

// Ends a part: it passed where all that was asked in it held.
static void end_part(void) {
    if (open_part) part_failed ? failed++ : passed++;
    open_part = 0;
}

static void part(const char *format, ...) {
    va_list words;
    end_part();
    va_start(words, format);
    vsnprintf(part_name, sizeof part_name, format, words);
    va_end(words);
    open_part = 1;
    part_failed = 0;
}

// One thing that is asked in a part; the first that does not hold is named.
static void holds(int condition, const char *format, ...) {
    va_list words;
    if (condition || part_failed++) return;
    printf("FAILED: %s: ", part_name);
    va_start(words, format);
    vprintf(format, words);
    va_end(words);
    printf("\n");
}

static int told(void) {
    end_part();
    printf("%d passed, %d failed\n", passed, failed);
    return failed != 0;
}

// The records have room behind them for one more, so that a write past the last shows.
struct table {
    struct windgusset_record records[MOST + 1];
    uint8_t store[MOST * WINDGUSSET_STORE_BYTES];
    size_t count;
};

static size_t size_of(const struct table *t) { return t->count * WINDGUSSET_STORE_BYTES; }

static uint8_t opened(struct table *t, size_t count) {
    t->count = count;
    return windgusset_open(t->records, count, t->store, size_of(t));
}

static uint8_t added(struct table *t, const char *address, uint32_t start, uint32_t spent) {
    return windgusset_add(t->records, t->count, t->store, size_of(t), (const uint8_t *)address, strlen(address), start, spent);
}

static struct windgusset_state shown(const struct table *t, const char *address, const char *name, uint64_t clock) {
    return windgusset_read(t->records, t->count, t->store, size_of(t), (const uint8_t *)address, strlen(address),
                           (const uint8_t *)name, strlen(name), clock);
}

// The last request that was sent, and its answer.
static uint8_t request[8192], answer[WINDGUSSET_ANSWER_BYTES];
static size_t request_length;

// A request of a method with some header lines, each with its CR LF, and a body of as many bytes.
static void write_request(const char *method, const char *address, const char *lines, size_t body) {
    const char *form = "%s %s SIP/2.0\r\nVia: v\r\nFrom: f\r\nTo: t\r\nCall-ID: 1\r\nCSeq: 1 %s\r\n%s\r\n";
    int head = snprintf((char *)request, sizeof request, form, method, address, method, lines);
    if (head < 0 || head + body > sizeof request) abort();
    memset(request + head, 'b', body);
    request_length = head + body;
}

static struct windgusset_handled sent(struct table *t, uint64_t clock) {
    memset(answer, UNTOUCHED, sizeof answer);
    return windgusset_handle(t->records, t->count, t->store, size_of(t), clock, 1, request, request_length, answer, sizeof answer);
}

static const char *const packages[] = {"presence", "message-summary", "dialog"};
static const char *const types[] = {"application/pidf+xml", "application/simple-message-summary", "application/dialog-info+xml"};
static const uint32_t most[] = {3600, 7200, 3600};

// A PUBLISH of a package that asks for a time and has a body of its type.
static struct windgusset_handled published(struct table *t, const char *address, int package, uint32_t expires, size_t body,
                                           uint64_t clock) {
    char lines[256];
    snprintf(lines, sizeof lines, "Event: %s\r\nContent-Type: %s\r\nExpires: %u\r\n", packages[package], types[package], expires);
    write_request("PUBLISH", address, lines, body);
    return sent(t, clock);
}
