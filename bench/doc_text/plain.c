/* The tasks of main.rt.txt in plain C: byte by byte, no library but memcpy. The same words, sums and times. */
#include <stdint.h>
#include <stdio.h>
#include <stdlib.h>
#include <string.h>
#include <time.h>

enum { TIMES = 9, STRIDE = 16 };

struct position { uint64_t line, character; };

static size_t character_len(unsigned char lead) {
    return lead < 0x80 ? 1 : lead < 0xE0 ? 2 : lead < 0xF0 ? 3 : 4;
}

static int ends_line(const unsigned char *text, size_t len, size_t at) {
    return text[at] == '\n' || (text[at] == '\r' && !(at + 1 < len && text[at + 1] == '\n'));
}

static size_t offset_of(const unsigned char *text, size_t len, struct position position) {
    size_t at = 0;
    for (uint64_t left = position.line; left > 0 && at < len; at++)
        if (ends_line(text, len, at)) left--;
    uint64_t left = position.character;
    while (at < len && text[at] != '\n' && text[at] != '\r') {
        uint64_t units = text[at] < 0xF0 ? 1 : 2;
        if (left < units) break;
        left -= units;
        at += character_len(text[at]);
    }
    return at;
}

/* Goes on from a place between two characters, to the last one at or before an offset. */
static void advance(const unsigned char *text, size_t len, size_t *at, struct position *position, size_t offset) {
    while (*at < len && *at + character_len(text[*at]) <= offset) {
        if (ends_line(text, len, *at)) {
            position->line++;
            position->character = 0;
        } else if (text[*at] != '\r') {
            position->character += text[*at] < 0xF0 ? 1 : 2;
        }
        *at += character_len(text[*at]);
    }
}

static struct position position_of(const unsigned char *text, size_t len, size_t offset) {
    struct position position = {0, 0};
    size_t at = 0;
    advance(text, len, &at, &position, offset);
    return position;
}

static uint64_t positions_of(const unsigned char *text, size_t len) {
    size_t count = len / STRIDE, at = 0;
    struct position *positions = malloc(count * sizeof *positions), position = {0, 0};
    for (size_t k = 0; k < count; k++) {
        advance(text, len, &at, &position, k * STRIDE);
        positions[k] = position;
    }
    uint64_t sum = count ? positions[count - 1].line + positions[count - 1].character : 0;
    free(positions);
    return sum;
}

static uint64_t now(void) {
    struct timespec time;
    clock_gettime(CLOCK_MONOTONIC, &time);
    return (uint64_t)time.tv_sec * 1000000000u + (uint64_t)time.tv_nsec;
}

int main(int argc, char **argv) {
    if (argc != 3) return 2;
    FILE *file = fopen(argv[2], "rb");
    if (!file) return 3;
    fseek(file, 0, SEEK_END);
    size_t len = (size_t)ftell(file);
    rewind(file);
    unsigned char *text = malloc(len + 1), *copy = malloc(len + 1);
    if (!text || !copy || fread(text, 1, len, file) != len) return 3;
    memset(copy, 1, len);
    const char *word = argv[1];
    struct position end = position_of(text, len, len);
    uint64_t best = UINT64_MAX, sum = 0;
    for (int time = 0; time < TIMES; time++) {
        uint64_t start = now();
        if (!strcmp(word, "offset")) {
            sum += offset_of(text, len, end);
        } else if (!strcmp(word, "position")) {
            struct position position = position_of(text, len, len);
            sum += position.line + position.character;
        } else if (!strcmp(word, "positions")) {
            sum += positions_of(text, len);
        } else {
            memcpy(copy, text, len);
            sum += copy[(size_t)time % len];
        }
        uint64_t taken = now() - start;
        if (taken < best) best = taken;
        __asm__ volatile("" : : "r"(copy), "r"(text) : "memory");
    }
    printf("%llu\n", (unsigned long long)sum);
    fprintf(stderr, "%llu\n", (unsigned long long)best);
    return 0;
}
