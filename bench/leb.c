// Writes a file of typical LEB128 numbers, or reads one with a plain loop that makes the same
// checks as our reader.
#include "bytes.h"
#include "timing.h"

static uint64_t state = 88172645463325252u;

static uint64_t next(void) {
    state ^= state << 13;
    state ^= state >> 7;
    state ^= state << 17;
    return state;
}

// Writes numbers like those in debug sections: most below 128, some of two bytes, few longer.
static uint64_t typical(void) {
    uint64_t kind = next() % 1000;
    if (kind < 880) return next() % 128;
    if (kind < 985) return next() % 16384;
    if (kind < 998) return next() % 2097152;
    return next();
}

static int generate(const char *path, long size) {
    FILE *file = fopen(path, "wb");
    if (!file) return 1;
    for (long written = 0; written < size;) {
        uint64_t value = typical();
        do {
            unsigned char byte = value & 0x7f;
            value >>= 7;
            if (value) byte |= 0x80;
            fputc(byte, file);
            written++;
        } while (value);
    }
    return fclose(file) != 0;
}

static int measure(const char *path) {
    uint64_t size, count = 0, sum = 0;
    const uint8_t *bytes = file_bytes(path, &size);
    struct timespec start = now();
    struct bytes b = {bytes, bytes + size, GOOD};
    while (b.at < b.end) {
        uint64_t value = uleb(&b);
        if (b.bad) break;
        count++;
        sum += value;
    }
    printf("%llu numbers, sum %llu, %ld us\n", (unsigned long long)count, (unsigned long long)sum,
        microseconds(start, now()));
    return 0;
}

int main(int argc, char **argv) {
    if (argc == 4 && !strcmp(argv[1], "make")) return generate(argv[2], atol(argv[3]));
    if (argc == 2) return measure(argv[1]);
    return 2;
}
