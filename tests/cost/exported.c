// The exported functions on the inputs of the program that is measured (probe.source): what a call through the library costs.
#include <stdio.h>
#include <string.h>

#include "windgusset.h"

static uint8_t input[131072], store[65536], answer[4608];
static struct windgusset_record records[16];

static uint64_t number(const uint8_t *bytes, size_t n)
{
    uint64_t v = 0;
    for (size_t i = 0; i < n; i++)
        v = v * 256 + bytes[i];
    return v;
}

int main(void)
{
    size_t got = fread(input, 1, sizeof input, stdin), lent = input[0], length = 0;
    windgusset_open(records, lent, store, 4096 * lent);
    for (size_t at = 1, n; at + 11 <= got; at += 11 + n) {
        n = number(input + at, 2);
        const uint8_t *payload = input + at + 11;
        if (input[at + 2] == 0)
            windgusset_add(records, lent, store, 4096 * lent, payload, n, 1000, 0);
        if (input[at + 2] == 1)
            length = windgusset_handle(records, lent, store, 4096 * lent, number(input + at + 3, 8), 1, payload, n, answer, sizeof answer).length;
    }
    return fwrite(answer, 1, length, stdout) != length;
}
