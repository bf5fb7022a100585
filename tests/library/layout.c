// The records of windgusset.h against the archive. What the library writes is found in the header's fields, and each byte of each
// field, set otherwise by itself, is seen by the library. Expected values are worked out from the paper.
#include "common.h"

#define START 0x01020304u
#define SPENT 0x05060708u
#define CLOCK UINT64_C(0xA1B2C3D4E5) // five bytes, all different; the limit leaves the other three zero

static struct table t;
static char addresses[MOST][WINDGUSSET_ADDRESS_BYTES + 1];

// Sixteen addresses of 64 bytes, all different.
static void name_addresses(void) {
    for (int r = 0; r < MOST; r++)
        for (int i = 0; i < WINDGUSSET_ADDRESS_BYTES; i++) addresses[r][i] = '!' + (r + i) % 90;
}

static int is_filled(const void *memory, size_t bytes, uint8_t value) {
    const uint8_t *b = memory;
    for (size_t i = 0; i < bytes; i++)
        if (b[i] != value) return 0;
    return 1;
}

static int is_same_slot(struct windgusset_slot a, struct windgusset_slot b) {
    return a.event == b.event && a.tag == b.tag && a.end == b.end && a.length == b.length && a.edition == b.edition;
}

// Every field of a record is the expected one's.
static void holds_record(const struct windgusset_record *a, const struct windgusset_record *b, const char *when) {
    holds(a->used == b->used, "used, %s", when);
    holds(!memcmp(a->address, b->address, sizeof a->address), "address, %s", when);
    holds(a->start == b->start, "start, %s", when);
    holds(a->spent == b->spent, "spent, %s", when);
    holds(a->clock == b->clock, "clock, %s", when);
    holds(a->map == b->map, "map, %s", when);
    for (int k = 0; k < WINDGUSSET_SLOTS; k++) holds(is_same_slot(a->slots[k], b->slots[k]), "slot %d, %s", k, when);
}

// Opening zeroes the fields of count records and not a byte behind them.
static void opening(void) {
    const struct windgusset_record empty = {0};
    for (size_t count = 1; count <= MOST; count++) {
        part("opening %zu", count);
        memset(&t, UNTOUCHED, sizeof t);
        holds(opened(&t, count) == WINDGUSSET_DONE, "result");
        for (size_t r = 0; r < count; r++) holds_record(&t.records[r], &empty, "opened");
        holds(is_filled(&t.records[count], (MOST + 1 - count) * sizeof *t.records, UNTOUCHED), "records behind");
        holds(is_filled(t.store, size_of(&t), 0), "store");
        holds(is_filled(t.store + size_of(&t), sizeof t.store - size_of(&t), UNTOUCHED), "store behind");
    }
}

// Eight successes of one address, each of which takes the next slot.
static void publish_eight(int r, struct windgusset_record *expected) {
    for (int k = 0; k < WINDGUSSET_SLOTS; k++) {
        uint64_t clock = CLOCK + 3 * k;
        uint32_t granted = 0x0A0B - k, n = expected->spent + 1;
        size_t body = 0x0101 + k;
        struct windgusset_handled h = published(&t, addresses[r], k % 3, granted, body, clock);
        expected->slots[k] = (struct windgusset_slot){k % 3, START + r + n * STEP, clock + granted, body, n};
        expected->spent = n;
        expected->clock = clock;
        expected->map |= 1 << k;
        holds(h.status == 200 && h.tag == expected->slots[k].tag, "answer %d", k);
        holds_record(&t.records[r], expected, "published");
        holds(is_filled(t.store + WINDGUSSET_STORE_BYTES * r + WINDGUSSET_BODY_BYTES * k, body, 'b'), "body %d", k);
    }
}

// What adding and publishing write to each of sixteen records.
static void written(void) {
    opened(&t, MOST);
    for (int r = 0; r < MOST; r++) {
        struct windgusset_record expected = {.used = 1, .start = START + r, .spent = SPENT};
        part("what is written to record %d", r);
        memcpy(expected.address, addresses[r], sizeof expected.address);
        holds(added(&t, addresses[r], START + r, SPENT) == WINDGUSSET_DONE, "adding");
        holds_record(&t.records[r], &expected, "added");
        publish_eight(r, &expected);
    }
}

// Fifteen unused records and one in use, with one slot that is as long, as late and as new as is sound. Unused records and slots that
// are not occupied hold what would not be sound.
static void one_sound(int r, int k) {
    struct windgusset_record *own = &t.records[r];
    t.count = MOST;
    memset(t.records, UNTOUCHED, sizeof t.records);
    for (int i = 0; i < MOST; i++) t.records[i].used = 0;
    own->used = 1;
    memcpy(own->address, addresses[r], sizeof own->address);
    own->start = START;
    own->spent = SPENT;
    own->clock = CLOCK;
    own->map = 1 << k;
    own->slots[k] = (struct windgusset_slot){0, START + 3 * STEP, CLOCK + most[0], WINDGUSSET_BODY_BYTES, SPENT};
}

static struct windgusset_state asked(int r) { return shown(&t, addresses[r], "presence", CLOCK); }

// The table stands as `one_sound` made it.
static void holds_sound(int r, int k, const char *when) {
    struct windgusset_state s = asked(r);
    holds(s.result == WINDGUSSET_DONE && s.shown == 1, "record %d, slot %d: %s", r, k, when);
    holds(s.position == (size_t)WINDGUSSET_STORE_BYTES * r + WINDGUSSET_BODY_BYTES * k && s.length == WINDGUSSET_BODY_BYTES,
          "record %d, slot %d: position, %s", r, k, when);
}

static int is_given(uint32_t start, uint32_t spent, uint32_t tag) {
    uint32_t n = (tag - start) * INVERSE;
    return 1 <= n && n <= spent;
}

// With a field set to a value the library gives a result; `one_sound` makes the rest.
#define GIVES(field, value, expected)                                                                            \
    do {                                                                                                         \
        one_sound(r, k);                                                                                         \
        t.records[r].field = (value);                                                                            \
        holds(asked(r).result == (expected), "record %d, slot %d: " #field " = " #value " with b = %d", r, k, b); \
    } while (0)

#define UNSOUND WINDGUSSET_NOT_SOUND

// The fields of a record, byte by byte.
static void record_fields(int r, int k) {
    int b = 0;
    GIVES(used, 0, WINDGUSSET_NOT_KNOWN);
    for (b = 2; b < 256; b++) GIVES(used, b, UNSOUND);
    for (b = 0; b < WINDGUSSET_ADDRESS_BYTES; b++) {
        GIVES(address[b], 32, UNSOUND);
        GIVES(address[b], 127, UNSOUND);
        GIVES(address[b], 0, b < WINDGUSSET_ADDRESS_BYTES - 1 ? UNSOUND : WINDGUSSET_NOT_KNOWN);
        GIVES(address[b], '~', WINDGUSSET_NOT_KNOWN);
    }
    for (b = 0; b < 4; b++) {
        holds(!is_given(START + (1u << 8 * b), SPENT, START + 3 * STEP), "another start gives the tag");
        GIVES(start, START + (1u << 8 * b), UNSOUND);
        GIVES(spent, SPENT - (1u << 8 * b), UNSOUND);
        GIVES(spent, SPENT + (1u << 8 * b), WINDGUSSET_DONE);
    }
    for (b = 0; b < 5; b++) GIVES(clock, CLOCK - (UINT64_C(1) << 8 * b), UNSOUND);
    for (b = 5; b < 8; b++) GIVES(clock, CLOCK + (UINT64_C(1) << 8 * b), UNSOUND);
    GIVES(clock, CLOCK + 1, WINDGUSSET_CLOCK_BELOW_LATEST);
    GIVES(clock, WINDGUSSET_CLOCK_LIMIT, WINDGUSSET_CLOCK_BELOW_LATEST);
    GIVES(clock, WINDGUSSET_CLOCK_LIMIT + 1, UNSOUND);
    GIVES(map, 0, WINDGUSSET_DONE);
    for (b = 0; b < WINDGUSSET_SLOTS; b++) GIVES(map, 1 << b, b == k ? WINDGUSSET_DONE : UNSOUND);
}

// The fields of a slot, byte by byte.
static void slot_fields(int r, int k) {
    int b = 0;
    for (b = 0; b < 256; b++) GIVES(slots[k].event, b, b < 3 ? WINDGUSSET_DONE : UNSOUND);
    for (b = 0; b < 4; b++) {
        holds(!is_given(START, SPENT, START + 3 * STEP + (1u << 8 * b)), "another tag is given");
        GIVES(slots[k].tag, START + 3 * STEP + (1u << 8 * b), UNSOUND);
        GIVES(slots[k].edition, SPENT + (1u << 8 * b), UNSOUND);
        GIVES(slots[k].edition, SPENT - (1u << 8 * b), WINDGUSSET_DONE);
    }
    GIVES(slots[k].tag, START + 4 * STEP, WINDGUSSET_DONE);
    GIVES(slots[k].edition, 0, UNSOUND);
    for (b = 0; b < 8; b++) GIVES(slots[k].end, CLOCK + most[0] + (UINT64_C(1) << 8 * b), UNSOUND);
    GIVES(slots[k].end, CLOCK + most[0] - 1, WINDGUSSET_DONE);
    for (b = 0; b < 2; b++) GIVES(slots[k].length, WINDGUSSET_BODY_BYTES + (1 << 8 * b), UNSOUND);
    GIVES(slots[k].length, WINDGUSSET_BODY_BYTES - 1, WINDGUSSET_DONE);
}

#define IS_FIELD(type, field, at) ((at) - offsetof(type, field) < sizeof(((type *)0)->field))

static int is_slot_padding(size_t at) {
    return !IS_FIELD(struct windgusset_slot, event, at) && !IS_FIELD(struct windgusset_slot, tag, at) &&
           !IS_FIELD(struct windgusset_slot, end, at) && !IS_FIELD(struct windgusset_slot, length, at) &&
           !IS_FIELD(struct windgusset_slot, edition, at);
}

static int is_padding(size_t at) {
    if (IS_FIELD(struct windgusset_record, slots, at))
        return is_slot_padding((at - offsetof(struct windgusset_record, slots)) % sizeof(struct windgusset_slot));
    return !IS_FIELD(struct windgusset_record, used, at) && !IS_FIELD(struct windgusset_record, address, at) &&
           !IS_FIELD(struct windgusset_record, start, at) && !IS_FIELD(struct windgusset_record, spent, at) &&
           !IS_FIELD(struct windgusset_record, clock, at) && !IS_FIELD(struct windgusset_record, map, at);
}

// No value of a padding byte is seen.
static void padding(int r, int k) {
    for (size_t at = 0; at < sizeof(struct windgusset_record); at++) {
        if (!is_padding(at)) continue;
        for (int value = 0; value < 256; value += 51) {
            one_sound(r, k);
            ((uint8_t *)&t.records[r])[at] = value;
            holds_sound(r, k, "padding");
        }
    }
}

// What the library reads of each slot of each record.
static void read_back(void) {
    for (int r = 0; r < MOST; r++) {
        part("what is read of record %d", r);
        for (int k = 0; k < WINDGUSSET_SLOTS; k++) {
            one_sound(r, k);
            holds_sound(r, k, "as made");
            slot_fields(r, k);
        }
        record_fields(r, r % WINDGUSSET_SLOTS);
    }
    part("padding");
    padding(0, 0);
    padding(MOST - 1, WINDGUSSET_SLOTS - 1);
}

int main(void) {
    part("the inverse of the step");
    holds(STEP * INVERSE == 1, "%u", STEP * INVERSE);
    name_addresses();
    opening();
    written();
    read_back();
    return told();
}
