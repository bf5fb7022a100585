/* A host for Windgusset: PUBLISH over UDP, the smallest thing that a phone can talk to. It reads nothing in a message itself.
 * docs/HOST.md says how it is started, what it keeps in its state file, and what it does not do. */
#define _GNU_SOURCE
#include <err.h>
#include <errno.h>
#include <fcntl.h>
#include <inttypes.h>
#include <libgen.h>
#include <netdb.h>
#include <poll.h>
#include <signal.h>
#include <stdio.h>
#include <stdlib.h>
#include <string.h>
#include <sys/file.h>
#include <sys/random.h>
#include <sys/signalfd.h>
#include <sys/socket.h>
#include <time.h>
#include <unistd.h>
#include "windgusset.h"

#define SERVED WINDGUSSET_MOST_RECORDS
#define KEPT 256     /* addresses that the state file may have, also such as are not served now */
#define BLOCK 256    /* tags that are written as spent ahead of use */
#define AHEAD 16     /* seconds that the written clock is ahead of use */
#define ANSWERS 1024 /* answers that are kept for datagrams that come again */
#define AGAIN 32     /* seconds within which a datagram that comes again is answered as before */

/* A line of the state file: every tag that was given has a number up to spent, and the next host begins there. */
struct kept {
    char address[WINDGUSSET_ADDRESS_BYTES + 1];
    uint32_t start, spent;
};

/* A datagram that was answered, when, and how. */
struct answered {
    struct sockaddr_storage from;
    int64_t at;
    size_t request_length, answer_length;
    uint8_t request[WINDGUSSET_REQUEST_BYTES], answer[WINDGUSSET_ANSWER_BYTES];
};

static struct windgusset_record records[SERVED];
static uint8_t store[SERVED * WINDGUSSET_STORE_BYTES];
static struct kept kept[KEPT], *served[SERVED];
static size_t kept_count, served_count, oldest_answer;
static uint64_t kept_clock; /* no clock above it was used */
static char state_text[KEPT * 128], *state_path, *state_new;
static int state_folder;
static struct answered answers[ANSWERS];

static uint32_t any_number(void) {
    uint32_t number;
    if (getrandom(&number, sizeof number, 0) != sizeof number) err(1, "no random numbers");
    return number;
}

static int64_t milliseconds(clockid_t id) {
    struct timespec t;
    if (clock_gettime(id, &t) != 0) err(1, "no clock");
    return (int64_t)t.tv_sec * 1000 + t.tv_nsec / 1000000;
}

/* Seconds since the epoch that never go back: where the system's clock is behind the latest, they go on from the latest. */
static uint64_t clock_now(void) {
    static int64_t latest, before;
    int64_t steady = milliseconds(CLOCK_MONOTONIC), wall = milliseconds(CLOCK_REALTIME);
    latest = before == 0 ? (int64_t)kept_clock * 1000 : latest + (steady - before), before = steady;
    if (latest < wall) latest = wall;
    return (uint64_t)latest / 1000;
}

static size_t place_of(const char *address) {
    size_t i = 0;
    while (i < kept_count && strcmp(kept[i].address, address) != 0) i++;
    return i;
}

static size_t put_state_text(void) {
    size_t n = (size_t)sprintf(state_text, "clock %" PRIu64 "\n", kept_clock);
    for (const struct kept *k = kept; k < kept + kept_count; k++)
        n += (size_t)sprintf(state_text + n, "spent %" PRIu32 " start %" PRIu32 " address %s\n", k->spent, k->start, k->address);
    return n + (size_t)sprintf(state_text + n, "end\n");
}

/* A file that is not there is a first start. One that would be written otherwise is not whole, and is left as it is. */
static void read_state(void) {
    static char found[sizeof state_text + 1];
    int file = open(state_path, O_RDONLY), end = 0;
    if (file < 0 && errno == ENOENT) return;
    ssize_t size = file < 0 ? -1 : read(file, found, sizeof found - 1);
    if (size < 0) err(1, "cannot read %s", state_path);
    close(file);
    sscanf(found, "clock %" SCNu64 "%n", &kept_clock, &end);
    for (char *at = found + end; kept_count < KEPT; at += end, kept_count++) {
        struct kept *k = &kept[kept_count];
        if (sscanf(at, " spent %" SCNu32 " start %" SCNu32 " address %64[!-~]%n", &k->spent, &k->start, k->address, &end) != 3 ||
            place_of(k->address) < kept_count) break;
    }
    if (put_state_text() != (size_t)size || memcmp(state_text, found, (size_t)size) != 0 || kept_clock > WINDGUSSET_CLOCK_LIMIT / 2)
        errx(1, "%s is not as a host writes it; nothing was changed", state_path);
}

/* The file is replaced whole, so that a crash leaves the old one or the new one. */
static void write_state(void) {
    ssize_t size = (ssize_t)put_state_text();
    int file = open(state_new, O_WRONLY | O_CREAT | O_TRUNC, 0644);
    errno = file < 0 ? errno : ENOSPC; /* what a write that stops short leaves unsaid */
    if (file < 0 || write(file, state_text, (size_t)size) != size || fsync(file) != 0 || close(file) != 0 ||
        rename(state_new, state_path) != 0 || (fsync(state_folder) != 0 && errno != EINVAL)) err(1, "cannot write %s", state_path);
}

/* Before a request is handled the file has to cover the clock and any tag that it may use. */
static void write_ahead(uint64_t clock) {
    int raised = clock > kept_clock;
    if (raised) kept_clock = clock + AHEAD;
    for (size_t i = 0; i < served_count; i++) {
        uint32_t spent = records[i].spent;
        if (spent < served[i]->spent || spent == UINT32_MAX) continue;
        served[i]->spent = spent < UINT32_MAX - BLOCK ? spent + BLOCK : UINT32_MAX, raised = 1;
    }
    if (raised) write_state();
}

static void serve_address(const char *address) {
    size_t i = place_of(address), length = strlen(address);
    if (i == KEPT) errx(1, "%s has %d addresses and takes no more", state_path, KEPT);
    if (i == kept_count) kept[i] = (struct kept){.start = any_number()};
    switch (windgusset_add(records, SERVED, store, sizeof store, (const uint8_t *)address, length, kept[i].start, kept[i].spent)) {
    case WINDGUSSET_DONE: break;
    case WINDGUSSET_ADDRESS_MALFORMED: errx(2, "address '%s': an address has 1 to 64 bytes, each 33 to 126", address);
    case WINDGUSSET_ADDRESS_THERE: errx(2, "address '%s' is given twice", address);
    default: errx(2, "address '%s': at most %d addresses are served", address, SERVED);
    }
    memcpy(kept[i].address, address, length);
    kept_count += i == kept_count;
    served[served_count++] = &kept[i];
}

/* One address a line. */
static void serve_file(const char *path) {
    char *line = NULL;
    size_t room = 0;
    FILE *file = fopen(path, "r");
    while (file && getline(&line, &room, file) >= 0) {
        line[strcspn(line, "\n")] = '\0';
        if (*line) serve_address(line);
    }
    if (!file || ferror(file)) err(2, "cannot read %s", path);
    free(line), fclose(file);
}

static int listen_on(const char *ip, const char *port) {
    struct addrinfo hints = {.ai_flags = AI_NUMERICHOST | AI_NUMERICSERV, .ai_socktype = SOCK_DGRAM}, *found;
    char again[16];
    snprintf(again, sizeof again, "%d", (uint16_t)strtoul(port, NULL, 10));
    if (strcmp(again, port) != 0 || strcmp(port, "0") == 0) errx(2, "port '%s': a port is a number from 1 to 65535", port);
    if (getaddrinfo(ip, port, &hints, &found) != 0) errx(2, "address '%s': it is given in numbers, such as 127.0.0.1 or ::1", ip);
    int sock = socket(found->ai_family, SOCK_DGRAM | SOCK_CLOEXEC, 0);
    if (sock < 0 || bind(sock, found->ai_addr, found->ai_addrlen) != 0) err(1, "cannot listen on %s port %s", ip, port);
    freeaddrinfo(found);
    return sock;
}

/* The bench's form: number, status, tag or -, seconds or -; or number, none and the result. */
static void log_line(const struct windgusset_handled *h) {
    static uint64_t nth;
    struct pollfd log = {.fd = STDOUT_FILENO, .events = POLLOUT};
    char tag[16] = "-", seconds[32] = "-";
    nth++;
    if (poll(&log, 1, 0) == 0) return; /* a log that is full and not read does not stop the host */
    if (h->status == 200) snprintf(tag, sizeof tag, "%08" PRIx32, h->tag);
    if (h->status == 200 || h->status == 423 || h->status == 503) snprintf(seconds, sizeof seconds, "%" PRIu64, h->seconds);
    if (h->result == WINDGUSSET_DONE) printf("%" PRIu64 " %d %s %s\n", nth, h->status, tag, seconds);
    else printf("%" PRIu64 " none %d\n", nth, h->result);
}

/* The answer that was given to the same datagram of the same sender, as long as it counts. */
static const struct answered *given_before(const struct sockaddr_storage *from, const uint8_t *request, size_t length) {
    int64_t since = milliseconds(CLOCK_MONOTONIC) - AGAIN * 1000;
    for (const struct answered *a = answers; a < answers + ANSWERS; a++)
        if (a->answer_length > 0 && a->at >= since && a->request_length == length && memcmp(a->request, request, length) == 0 &&
            memcmp(&a->from, from, sizeof *from) == 0) return a;
    return NULL;
}

/* Handles a request; NULL where it is not answered. The oldest answer makes room for the new one. */
static const struct answered *given_now(const struct sockaddr_storage *from, const uint8_t *request, size_t length) {
    struct answered *a = &answers[oldest_answer];
    uint64_t clock = clock_now();
    write_ahead(clock);
    struct windgusset_handled h = windgusset_handle(records, SERVED, store, sizeof store, clock, any_number(), request, length,
                                                    a->answer, sizeof a->answer);
    log_line(&h);
    if (h.result != WINDGUSSET_DONE) return NULL; /* as for one above 4,096 bytes */
    memcpy(a->request, request, length);
    a->from = *from, a->at = milliseconds(CLOCK_MONOTONIC), a->request_length = length, a->answer_length = h.length;
    oldest_answer = (oldest_answer + 1) % ANSWERS;
    return a;
}

static void take_datagram(int sock) {
    static uint8_t request[65536];
    struct sockaddr_storage from = {0};
    socklen_t size = sizeof from;
    ssize_t length = recvfrom(sock, request, sizeof request, MSG_DONTWAIT, (struct sockaddr *)&from, &size);
    if (length < 0 && (errno == EAGAIN || errno == EINTR)) return;
    if (length < 0) err(1, "cannot receive");
    const struct answered *a = given_before(&from, request, (size_t)length);
    if (!a) a = given_now(&from, request, (size_t)length);
    if (a) sendto(sock, a->answer, a->answer_length, 0, (struct sockaddr *)&from, size); /* one that is lost is asked for again */
}

/* No two hosts count tags in one file. */
static void take_state(char *path) {
    char *lock, *copy = strdup(state_path = path);
    if (!copy || asprintf(&state_new, "%s.new", path) < 0 || asprintf(&lock, "%s.lock", path) < 0) err(1, "no memory");
    state_folder = open(dirname(copy), O_RDONLY | O_DIRECTORY | O_CLOEXEC);
    int file = open(lock, O_RDWR | O_CREAT | O_CLOEXEC, 0644);
    if (state_folder < 0 || file < 0) err(1, "cannot write %s", lock);
    if (flock(file, LOCK_EX | LOCK_NB) != 0) errx(1, "%s is in use by another host", path);
    free(copy), free(lock);
    read_state();
}

int main(int argc, char **argv) {
    if (argc < 5) errx(2, "usage: host IP PORT STATE ADDRESS.. (or -f FILE, with an address a line)");
    setvbuf(stdout, NULL, _IOLBF, 0), signal(SIGPIPE, SIG_IGN);
    take_state(argv[3]);
    if (windgusset_open(records, SERVED, store, sizeof store) != WINDGUSSET_DONE) errx(1, "the table was not opened");
    for (int i = 4; i < argc; i++) {
        if (strcmp(argv[i], "-f") != 0) serve_address(argv[i]);
        else if (++i < argc) serve_file(argv[i]);
        else errx(2, "-f: no file is given");
    }
    if (served_count == 0) errx(2, "no address is given");
    sigset_t ends;
    sigemptyset(&ends), sigaddset(&ends, SIGTERM), sigaddset(&ends, SIGINT), sigprocmask(SIG_BLOCK, &ends, NULL);
    int ended = signalfd(-1, &ends, SFD_CLOEXEC), sock = listen_on(argv[1], argv[2]);
    if (ended < 0) err(1, "cannot wait for signals");
    struct pollfd on[] = {{.fd = ended, .events = POLLIN}, {.fd = sock, .events = POLLIN}};
    write_ahead(clock_now());
    fprintf(stderr, "host: listening on %s port %s\n", argv[1], argv[2]);
    while (poll(on, 2, -1) < 0 || !on[0].revents)
        if (on[1].revents) take_datagram(sock);
    kept_clock = clock_now(); /* at a clean end nothing is ahead */
    for (size_t i = 0; i < served_count; i++) served[i]->spent = records[i].spent;
    write_state();
}
