/* Stands in the place of clock_gettime in a host (ld --wrap): the file that SHIFT names has the seconds by which the system's clock and the
 * steady clock are ahead of what they are. Where there is no such file they are as they are. */
#define _GNU_SOURCE
#include <stdio.h>
#include <stdlib.h>
#include <time.h>

int __real_clock_gettime(clockid_t id, struct timespec *now);
int __wrap_clock_gettime(clockid_t id, struct timespec *now);

int __wrap_clock_gettime(clockid_t id, struct timespec *now) {
    long wall = 0, steady = 0;
    const char *path = getenv("SHIFT");
    FILE *file = path ? fopen(path, "r") : NULL;
    if (file && fscanf(file, "%ld %ld", &wall, &steady) != 2) abort();
    if (file) fclose(file);
    int result = __real_clock_gettime(id, now);
    now->tv_sec += id == CLOCK_MONOTONIC ? steady : wall;
    return result;
}
