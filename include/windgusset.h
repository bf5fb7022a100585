/* Windgusset keeps SIP published event state (PUBLISH, RFC 3903) for 1 to 16 addresses: one whole request in, one whole response out.
 * It is for x86-64, by the C calling convention of Linux. A whole program (cc program.c libwindgusset.a):

#include <stdio.h>
#include "windgusset.h"
static struct windgusset_record records[1];
static uint8_t store[WINDGUSSET_STORE_BYTES], answer[WINDGUSSET_ANSWER_BYTES];
static const uint8_t request[] = "PUBLISH ann SIP/2.0\r\nv: SIP/2.0/UDP pua\r\nf: <ann>;tag=1\r\nt: <ann>\r\ni: 1\r\nCSeq: 1 PUBLISH\r\nEvent: presence\r\nExpires: 3600\r\nc: application/pidf+xml\r\n\r\nx";
int main(void) {
    if (windgusset_open(records, 1, store, sizeof store) || windgusset_add(records, 1, store, sizeof store, (const uint8_t *)"ann", 3, 0, 0)) return 1;
    struct windgusset_handled handled = windgusset_handle(records, 1, store, sizeof store, 100, 1, request, sizeof request - 1, answer, sizeof answer);
    return handled.result != WINDGUSSET_DONE || fwrite(answer, 1, handled.length, stdout) != handled.length;
}

 * The caller lends all memory, and lends it for the call: nothing is kept. No memory is allocated and no global is written, so calls on
 * different tables may run at the same time. A table is an array of 1 to 16 records with a store of 4,096 bytes for each.
 *  - No pointer may be null, not even with length 0. Records are aligned to 8 bytes.
 *  - Records, store and answer overlap nothing else that is lent to the call. What is const may overlap what else is const.
 *  - Any bytes are a table, as one that was read back from a file. Records that are not sound are refused with result 5.
 *    Padding is never read, and what it holds after a call is not promised.
 *  - A call that gives a result other than 0, or a status other than 200, leaves records and store as they were.
 */
#ifndef WINDGUSSET_H
#define WINDGUSSET_H

#include <stddef.h>
#include <stdint.h>

#define WINDGUSSET_MOST_RECORDS 16
#define WINDGUSSET_RECORD_BYTES 288   /* of struct windgusset_record, aligned to 8 */
#define WINDGUSSET_SLOT_BYTES 24      /* of struct windgusset_slot, aligned to 8 */
#define WINDGUSSET_STORE_BYTES 4096   /* of the store, for each record; the store has exactly as many */
#define WINDGUSSET_ANSWER_BYTES 4608  /* the least answer buffer; every message fits */
#define WINDGUSSET_REQUEST_BYTES 4096 /* the longest request */
#define WINDGUSSET_ADDRESS_BYTES 64   /* the longest address */
#define WINDGUSSET_SLOTS 8            /* publications of an address */
#define WINDGUSSET_BODY_BYTES 512     /* the longest body; slot k of record r has its own from 4096 * r + 512 * k of the store on */
#define WINDGUSSET_CLOCK_LIMIT UINT64_C(1000000000000)
/* The stack that a function takes below its caller, in bytes, measured, with the memcpy and memset of glibc. */
#define WINDGUSSET_OPEN_STACK 64
#define WINDGUSSET_ADD_STACK 4224
#define WINDGUSSET_HANDLE_STACK 5888
#define WINDGUSSET_READ_STACK 4480

/* What a call comes back with; the first that applies is given. */
enum windgusset_result {
    WINDGUSSET_DONE = 0,
    WINDGUSSET_BUFFER_TOO_SMALL = 1,    /* answer buffer below 4,608 */
    WINDGUSSET_WRONG_SIZES = 2,         /* records 0 or above 16, or store of another size */
    WINDGUSSET_REQUEST_TOO_LONG = 3,    /* request above 4,096 */
    WINDGUSSET_CLOCK_ABOVE_LIMIT = 4,   /* clock above 1,000,000,000,000 */
    WINDGUSSET_NOT_SOUND = 5,           /* some record not sound */
    WINDGUSSET_UNREADABLE = 6,          /* request unreadable, above 64 header lines, or its method is ACK: it is not answered */
    WINDGUSSET_ADDRESS_MALFORMED = 7,   /* not 1 to 64 bytes, each 33 to 126 */
    WINDGUSSET_ADDRESS_THERE = 8,       /* address there already */
    WINDGUSSET_NO_UNUSED_RECORD = 9,    /* every record is in use */
    WINDGUSSET_NOT_KNOWN = 10,          /* address or package not known */
    WINDGUSSET_CLOCK_BELOW_LATEST = 11  /* clock below the latest success of the address */
};

/* One publication, where the record's map says that the slot is occupied. */
struct windgusset_slot {
    uint8_t event;    /* package: 0 presence, 1 message-summary, 2 dialog */
    uint32_t tag;     /* SIP-ETag, there written as eight lowercase hex digits */
    uint64_t end;     /* live while the clock is below it */
    uint16_t length;  /* bytes of the body */
    uint32_t edition; /* the success, counted as spent is, that last set the body */
};

/* One address. All bytes zero is a record that is not in use. */
struct windgusset_record {
    uint8_t used;                              /* 1 in use, 0 not; anything else is not sound */
    uint8_t address[WINDGUSSET_ADDRESS_BYTES]; /* zero past its end */
    uint32_t start, spent;                     /* success n gives the tag start + n * 2654435769; spent is the latest n */
    uint64_t clock;                            /* of the latest success */
    uint8_t map;                               /* bit k: slot k is occupied */
    struct windgusset_slot slots[WINDGUSSET_SLOTS];
};

/* A handled request. */
struct windgusset_handled {
    size_t length;    /* bytes of the message, which is first in answer; 0 where result is not 0 */
    uint64_t seconds; /* granted where status is 200, those of Min-Expires at 423, of Retry-After at 503; else 0 */
    uint32_t tag;     /* the SIP-ETag given where status is 200; else 0 */
    uint16_t status;  /* of the message: 200, 400, 404, 405, 412, 413, 415, 423, 489, 500 or 503; 0 where result is not 0 */
    uint8_t result;   /* 0 a message was written, else 1 to 6 */
};

/* State that was read. */
struct windgusset_state {
    size_t position, length; /* the body is these bytes of the store; both 0 where shown is not 1 */
    uint8_t shown;           /* 1 a part of the store; 2 nothing is live, the caller's default is shown whole; 0 nothing, refused */
    uint8_t result;          /* 0, 2, 4, 5, 10 or 11 */
};

#ifdef __cplusplus
#define WINDGUSSET_LAID_OUT(type, bytes, align) static_assert(sizeof(type) == (bytes) && alignof(type) == (align), #type)
extern "C" {
#else
#define WINDGUSSET_LAID_OUT(type, bytes, align) _Static_assert(sizeof(type) == (bytes) && _Alignof(type) == (align), #type)
#endif
WINDGUSSET_LAID_OUT(struct windgusset_slot, WINDGUSSET_SLOT_BYTES, 8);
WINDGUSSET_LAID_OUT(struct windgusset_record, WINDGUSSET_RECORD_BYTES, 8);
WINDGUSSET_LAID_OUT(struct windgusset_handled, 24, 8);
WINDGUSSET_LAID_OUT(struct windgusset_state, 24, 8);

/* Empties all records and zeroes the store, which has size bytes. Gives 0 or 2. */
uint8_t windgusset_open(struct windgusset_record *records, size_t count, uint8_t *store, size_t size);

/* Adds an address to the lowest unused record. A new one has spent 0; one that comes back with its start and spent repeats no tag.
 * Gives 0, 2, 5, 7, 8 or 9. */
uint8_t windgusset_add(struct windgusset_record *records, size_t count, uint8_t *store, size_t size,
                       const uint8_t *address, size_t address_length, uint32_t start, uint32_t spent);

/* Handles one request at a clock in seconds, which for one address never goes back: an earlier one than its latest success is answered
 * 500. The number is written as eight lowercase hex digits to To as its tag, where To has none; RFC 3261 wants it random.
 * Answer bytes past the message stay as they were; where the result is not 0, all of them do. */
struct windgusset_handled windgusset_handle(struct windgusset_record *records, size_t count, uint8_t *store, size_t size,
                                            uint64_t clock, uint32_t number, const uint8_t *request, size_t request_length,
                                            uint8_t *answer, size_t answer_size);

/* Finds the newest live body of an address and a package ("presence"). It lies in the store, and stays there until the next call of
 * windgusset_open, windgusset_add or windgusset_handle on this table. */
struct windgusset_state windgusset_read(const struct windgusset_record *records, size_t count, const uint8_t *store, size_t size,
                                        const uint8_t *address, size_t address_length, const uint8_t *name, size_t name_length,
                                        uint64_t clock);

#ifdef __cplusplus
}
#endif
#endif
