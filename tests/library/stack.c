// The stack that each function of windgusset.h takes below its caller: every call is made on a stack of its own that was filled before,
// and what was overwritten is its depth. Each function is called many times: full and empty tables, longest requests, all refusals.
// Prints the greatest depth of each; the header's figure is to be as great, and not above it by more than a quarter.
#include "common.h"

#include <ucontext.h>

#define AREA 65536

static struct table t;
static _Alignas(64) uint8_t area[AREA];
static ucontext_t back, there;
static uint8_t *top;

// One call and what it is given.
static enum { OPEN, ADD, HANDLE, READ, CALLS } call;
static struct {
    const char *address, *name;
    uint32_t start, spent;
    uint64_t clock;
    size_t room;
} given;
static struct windgusset_handled handled;
static struct windgusset_state state;
static uint8_t result;

// Functions in the place of the library's, which note where the stack of their caller ends.
static uint8_t open_top(struct windgusset_record *records, size_t count, uint8_t *store, size_t size) {
    (void)records, (void)count, (void)store, (void)size;
    top = __builtin_dwarf_cfa();
    return 0;
}
static uint8_t add_top(struct windgusset_record *records, size_t count, uint8_t *store, size_t size, const uint8_t *address, size_t length,
                       uint32_t start, uint32_t spent) {
    (void)records, (void)count, (void)store, (void)size, (void)address, (void)length, (void)start, (void)spent;
    top = __builtin_dwarf_cfa();
    return 0;
}
static struct windgusset_handled handle_top(struct windgusset_record *records, size_t count, uint8_t *store, size_t size, uint64_t clock,
                                            uint32_t number, const uint8_t *bytes, size_t length, uint8_t *to, size_t room) {
    (void)records, (void)count, (void)store, (void)size, (void)clock, (void)number, (void)bytes, (void)length, (void)to, (void)room;
    top = __builtin_dwarf_cfa();
    return (struct windgusset_handled){0};
}
static struct windgusset_state read_top(const struct windgusset_record *records, size_t count, const uint8_t *store, size_t size,
                                        const uint8_t *address, size_t length, const uint8_t *name, size_t name_length, uint64_t clock) {
    (void)records, (void)count, (void)store, (void)size, (void)address, (void)length, (void)name, (void)name_length, (void)clock;
    top = __builtin_dwarf_cfa();
    return (struct windgusset_state){0};
}

static uint8_t (*volatile do_open)(struct windgusset_record *, size_t, uint8_t *, size_t);
static uint8_t (*volatile do_add)(struct windgusset_record *, size_t, uint8_t *, size_t, const uint8_t *, size_t, uint32_t, uint32_t);
static struct windgusset_handled (*volatile do_handle)(struct windgusset_record *, size_t, uint8_t *, size_t, uint64_t, uint32_t,
                                                       const uint8_t *, size_t, uint8_t *, size_t);
static struct windgusset_state (*volatile do_read)(const struct windgusset_record *, size_t, const uint8_t *, size_t, const uint8_t *,
                                                   size_t, const uint8_t *, size_t, uint64_t);
static size_t address_length, name_length, size;

// Makes the one call, with its stack in the area. Nothing else is called from here.
static void there_call(void) {
    switch (call) {
    case OPEN:
        result = do_open(t.records, t.count, t.store, size);
        break;
    case ADD:
        result = do_add(t.records, t.count, t.store, size, (const uint8_t *)given.address, address_length, given.start, given.spent);
        break;
    case HANDLE:
        handled = do_handle(t.records, t.count, t.store, size, given.clock, 1, request, request_length, answer, given.room);
        break;
    default:
        state = do_read(t.records, t.count, t.store, size, (const uint8_t *)given.address, address_length, (const uint8_t *)given.name,
                        name_length, given.clock);
    }
}

static void in_area(void) {
    getcontext(&there);
    there.uc_stack.ss_sp = area;
    there.uc_stack.ss_size = sizeof area;
    there.uc_link = &back;
    makecontext(&there, there_call, 0);
    swapcontext(&back, &there);
}

// What the area holds before a call: no two places alike, so that a byte copied from one to the other shows.
static uint8_t filled[AREA];

static void fill_area(uint32_t seed) {
    for (size_t i = 0; i < AREA; i++) {
        seed = seed * 1664525 + 1013904223;
        filled[i] = seed >> 24;
    }
    memcpy(area, filled, AREA);
}

// The deepest byte that a call overwrites in the area, counted from the end of its caller's stack.
static size_t depth(uint32_t seed) {
    size_t i = 0;
    fill_area(seed);
    in_area();
    while (i < AREA && area[i] == filled[i]) i++;
    return top - (area + i);
}

static size_t deepest[CALLS];
static struct table before;

// One call is measured, twice with different fillings; the table is as it was before each, and in the end as the call leaves it.
static void measure(void) {
    size_t a, b;
    size = size_of(&t);
    address_length = strlen(given.address);
    name_length = strlen(given.name);
    do_open = open_top, do_add = add_top, do_handle = handle_top, do_read = read_top;
    in_area();
    do_open = windgusset_open, do_add = windgusset_add, do_handle = windgusset_handle, do_read = windgusset_read;
    before = t;
    a = depth(1);
    t = before;
    b = depth(2);
    if (a < b) a = b;
    if (deepest[call] < a) deepest[call] = a;
}

static void measure_open(size_t count) {
    call = OPEN;
    t.count = count;
    measure();
}

static void measure_add(const char *address, uint32_t spent) {
    call = ADD;
    given.address = address;
    given.spent = spent;
    measure();
}

static unsigned measure_handle(uint64_t clock) {
    call = HANDLE;
    given.clock = clock;
    given.room = sizeof answer;
    measure();
    return handled.status;
}

static unsigned measure_read(const char *address, const char *name, uint64_t clock) {
    call = READ;
    given.address = address;
    given.name = name;
    given.clock = clock;
    measure();
    return state.result;
}

static const char *address_of(int r) {
    static char address[WINDGUSSET_ADDRESS_BYTES + 1];
    memset(address, 'a', WINDGUSSET_ADDRESS_BYTES);
    address[WINDGUSSET_ADDRESS_BYTES - 1] = 'a' + r;
    return address;
}

// A request as long as is allowed, most of it one Via line.
static void write_longest(const char *address, int package, size_t body) {
    char lines[WINDGUSSET_REQUEST_BYTES + 1] = "";
    snprintf(lines, sizeof lines, "Event: %s\r\nContent-Type: %s\r\nVia: ", packages[package], types[package]);
    write_request("PUBLISH", address, lines, body);
    size_t rest = WINDGUSSET_REQUEST_BYTES - request_length - 2, at = strlen(lines);
    memset(lines + at, 'v', rest);
    strcpy(lines + at + rest, "\r\n");
    write_request("PUBLISH", address, lines, body);
}

// A request of 64 header lines.
static void write_many_lines(const char *address) {
    char lines[2048] = "Event: presence\r\nContent-Type: application/pidf+xml\r\n";
    for (int i = 7; i < 64; i++) strcat(lines, i % 2 ? "v: 1\r\n" : "X: 1\r\n");
    write_request("PUBLISH", address, lines, 1);
}

// A full table: sixteen addresses of 64 bytes, eight live publications each, made by calls that are measured.
static void fill(void) {
    measure_open(MOST);
    for (int r = 0; r < MOST; r++) measure_add(address_of(r), r * 1000);
    for (int r = 0; r < MOST; r++)
        for (int k = 0; k < WINDGUSSET_SLOTS; k++) {
            write_longest(address_of(r), k % 3, WINDGUSSET_BODY_BYTES);
            holds(measure_handle(100) == 200, "filling record %d, slot %d", r, k);
        }
}

// Answered requests and readings on a full table.
static void use(void) {
    char lines[128];
    for (int r = 0; r < MOST; r++) {
        write_longest(address_of(r), 0, 1);
        holds(measure_handle(100) == 503, "no room");
        snprintf(lines, sizeof lines, "Event: message-summary\r\nSIP-If-Match: %08x\r\n", t.records[r].slots[1].tag);
        write_request("PUBLISH", address_of(r), lines, 0);
        holds(measure_handle(101) == 200, "refreshing");
        for (int package = 0; package < 3; package++)
            holds(measure_read(address_of(r), packages[package], 101) == WINDGUSSET_DONE, "reading");
        write_many_lines(address_of(r));
        holds(measure_handle(100000) == 200, "after all are over");
        holds(measure_read(address_of(r), "presence", 100000) == WINDGUSSET_DONE, "reading");
    }
}

// Each refusal that has a message.
static void refuse(void) {
    static const struct { const char *method, *lines; size_t body; unsigned status; } tries[] = {
        {"OPTIONS", "", 0, 405},
        {"PUBLISH", "Expires: 4294967296\r\n", 0, 400},
        {"PUBLISH", "", 0, 489},
        {"PUBLISH", "Event: presence\r\nSIP-If-Match: a b\r\n", 0, 400},
        {"PUBLISH", "Event: presence\r\nSIP-If-Match: 00000000\r\n", 0, 412},
        {"PUBLISH", "Event: presence\r\nExpires: 59\r\n", 0, 423},
        {"PUBLISH", "Event: presence\r\n", 513, 413},
        {"PUBLISH", "Event: presence\r\n", 512, 415},
        {"PUBLISH", "Event: presence\r\n", 0, 400},
    };
    for (size_t i = 0; i < sizeof tries / sizeof *tries; i++) {
        write_request(tries[i].method, address_of(15), tries[i].lines, tries[i].body);
        holds(measure_handle(100000) == tries[i].status, "status %u", tries[i].status);
    }
    write_longest("nobody", 0, 512);
    holds(measure_handle(100000) == 404, "nobody");
    write_longest(address_of(3), 0, 512);
    holds(measure_handle(0) == 500, "early");
}

// Each result that has no message.
static void stay_silent(void) {
    memset(request, 'x', sizeof request);
    for (size_t length = 0; length <= WINDGUSSET_REQUEST_BYTES + 1; length += 241) {
        request_length = length;
        holds(measure_handle(0) == 0, "unreadable");
    }
    holds(measure_handle(WINDGUSSET_CLOCK_LIMIT + 1) == 0, "late");
    given.room = 0;
    measure();
    measure_add(address_of(0), 0);
    measure_add("new", 0);
    measure_add("", 0);
    holds(measure_read("nobody", "presence", 0) == WINDGUSSET_NOT_KNOWN, "nobody");
    holds(measure_read(address_of(0), "none", 0) == WINDGUSSET_NOT_KNOWN, "no package");
    holds(measure_read(address_of(0), "presence", 0) == WINDGUSSET_CLOCK_BELOW_LATEST, "early");
    holds(measure_read(address_of(0), "presence", WINDGUSSET_CLOCK_LIMIT + 1) == WINDGUSSET_CLOCK_ABOVE_LIMIT, "late");
    t.records[MOST - 1].used = 2;
    holds(measure_read(address_of(0), "presence", 0) == WINDGUSSET_NOT_SOUND, "not sound");
    holds(measure_handle(0) == 0, "not sound");
    measure_add("new", 0);
    for (size_t count = 0; count <= MOST + 1; count += MOST + 1) {
        t.count = count;
        holds(measure_read(address_of(0), "presence", 0) == WINDGUSSET_WRONG_SIZES, "sizes");
        holds(measure_handle(0) == 0, "sizes");
        measure_add("new", 0);
        measure_open(count);
    }
}

static void compare(const char *name, size_t measured, size_t figure) {
    part("the stack of %s", name);
    printf("%s: %zu bytes of stack (windgusset.h: %zu)\n", name, measured, figure);
    holds(measured <= figure, "the header has less");
    holds(figure * 4 <= measured * 5, "the header has more by over a quarter");
}

int main(void) {
    given.address = given.name = "";
    part("the calls that are measured");
    for (size_t count = 1; count <= MOST; count++) measure_open(count);
    fill();
    use();
    refuse();
    stay_silent();
    compare("open", deepest[OPEN], WINDGUSSET_OPEN_STACK);
    compare("add", deepest[ADD], WINDGUSSET_ADD_STACK);
    compare("handle", deepest[HANDLE], WINDGUSSET_HANDLE_STACK);
    compare("read", deepest[READ], WINDGUSSET_READ_STACK);
    return told();
}
