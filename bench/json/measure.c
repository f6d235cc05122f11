// Times the calls of libbench_parts.a on a key frame of so many fields, and prints the least time of each. With words CALL FIELDS
// TURNS it makes a call so often, for a tool that counts its instructions.
#include <stdint.h>
#include <stdio.h>
#include <stdlib.h>
#include <string.h>
#include <time.h>

size_t bench_json_write(uint32_t turns, const uint8_t *config, size_t config_length, uint8_t *bytes, size_t length);
size_t bench_json_read(uint32_t turns, const uint8_t *config, size_t config_length, const uint8_t *line, size_t length);

enum { ROUNDS = 30, TURNS = 2000, SIZE = 1 << 16 };

static char config[SIZE];
static uint8_t line[SIZE];

static size_t config_of(int fields) {
    size_t at = sprintf(config, "[publisher]\nid = \"u8:5\"\n[[dataset]]\nname = \"demo\"\n");
    for (int k = 0; k < fields; k++) at += sprintf(config + at, "[[dataset.field]]\nname = \"f%d\"\nkind = \"UInt32\"\n", k);
    return at;
}

static size_t call(int writes, int fields, uint32_t turns, size_t length) {
    size_t size = config_of(fields);
    return writes ? bench_json_write(turns, (uint8_t *)config, size, line, SIZE) : bench_json_read(turns, (uint8_t *)config, size, line, length);
}

static double seconds(void) {
    struct timespec now;
    clock_gettime(CLOCK_THREAD_CPUTIME_ID, &now);
    return now.tv_sec + now.tv_nsec / 1e9;
}

static double timed(int writes, int fields, uint32_t turns, size_t length) {
    double before = seconds();
    call(writes, fields, turns, length);
    return seconds() - before;
}

// Nanoseconds of one call: the least time of many less the least of none, which reads the configuration too.
static double least(int writes, int fields, size_t length) {
    double none = 1e9, many = 1e9;
    for (int round = 0; round < ROUNDS; round++) {
        double one = timed(writes, fields, 0, length), other = timed(writes, fields, TURNS, length);
        if (one < none) none = one;
        if (other < many) many = other;
    }
    return (many - none) / TURNS * 1e9;
}

int main(int count, char **words) {
    if (count == 4) {
        int fields = atoi(words[2]);
        size_t length = call(1, fields, 0, 0);
        return call(!strcmp(words[1], "write"), fields, atoi(words[3]), length) == 0 && atoi(words[3]) > 0;
    }
    for (int fields = 4; fields <= 64; fields *= 4) {
        size_t length = call(1, fields, 0, 0);
        if (length == 0 || call(0, fields, 1, length) != 1) return 1;
        printf("%d fields, %zu bytes: written in %.0f ns, read in %.0f ns\n", fields, length, least(1, fields, length), least(0, fields, length));
    }
    return 0;
}
