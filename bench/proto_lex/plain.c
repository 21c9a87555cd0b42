// Finds the tokens of proto3 texts by a table of byte classes: `plain FILE` does so a few times, prints how many
// tokens there are on standard output, and on standard error the nanoseconds of the fastest time.
#include <stdint.h>
#include <stdio.h>
#include <stdlib.h>
#include <string.h>
#include <time.h>

enum class { OTHER, LETTER, DIGIT, QUOTE, SPACE, SYMBOL };
enum kind { IDENT, INT, FLOAT, STR, SYMBOL_TOKEN, BAD_CHARACTER, BAD_NUMBER, BAD_STRING, BAD_COMMENT };

struct token {
    uint8_t kind;
    size_t start, end;
};

struct tokens {
    struct token *items;
    size_t len, room;
};

static uint8_t class_of[256];

static void fill_classes(void) {
    for (int b = 'a'; b <= 'z'; b++) class_of[b] = LETTER;
    for (int b = 'A'; b <= 'Z'; b++) class_of[b] = LETTER;
    class_of['_'] = LETTER;
    for (int b = '0'; b <= '9'; b++) class_of[b] = DIGIT;
    class_of['"'] = class_of['\''] = QUOTE;
    for (const char *s = " \t\v\f\r\n"; *s; s++) class_of[(uint8_t)*s] = SPACE;
    for (const char *s = "{}()[]<>;,=.:-+/"; *s; s++) class_of[(uint8_t)*s] = SYMBOL;
}

static int is_name(uint8_t b) { return class_of[b] == LETTER || class_of[b] == DIGIT; }
static int is_digit(uint8_t b) { return class_of[b] == DIGIT; }
static int is_mark(uint8_t b) { return b == 'e' || b == 'E'; }

static size_t digits(const uint8_t *s, size_t at, size_t end) {
    while (at < end && is_digit(s[at])) at++;
    return at;
}

static uint8_t number_kind(const uint8_t *s, size_t start, size_t end, int hex) {
    size_t at;
    if (hex) {
        for (at = start + 2; at < end; at++) {
            uint8_t b = s[at] | 32;
            if (!is_digit(s[at]) && !(b >= 'a' && b <= 'f')) break;
        }
        return at == end && end > start + 2 ? INT : BAD_NUMBER;
    }
    at = digits(s, start, end);
    if (at == end) {
        if (s[start] != '0') return INT;
        for (at = start; at < end && s[at] < '8'; at++) {}
        return at == end ? INT : BAD_NUMBER;
    }
    if (s[at] == '.') {
        at = digits(s, at + 1, end);
        if (at == end) return FLOAT;
    }
    if (!is_mark(s[at])) return BAD_NUMBER;
    at++;
    if (at < end && (s[at] == '+' || s[at] == '-')) at++;
    return at < end && digits(s, at, end) == end ? FLOAT : BAD_NUMBER;
}

static size_t number_end(const uint8_t *s, size_t start, size_t n, int hex) {
    size_t at = start + 1;
    while (at < n && (is_name(s[at]) || s[at] == '.' || ((s[at] == '+' || s[at] == '-') && is_mark(s[at - 1]) && !hex))) at++;
    return at;
}

static size_t string_end(const uint8_t *s, size_t start, size_t n, uint8_t *kind) {
    size_t at = start + 1;
    while (at < n && s[at] != '\n') {
        if (s[at] == s[start]) {
            *kind = STR;
            return at + 1;
        }
        at += s[at] == '\\' && at + 1 < n && s[at + 1] != '\n' ? 2 : 1;
    }
    *kind = BAD_STRING;
    return at;
}

static void push(struct tokens *tokens, uint8_t kind, size_t start, size_t end) {
    if (tokens->len == tokens->room) {
        tokens->room = tokens->room ? tokens->room * 2 : 4;
        tokens->items = realloc(tokens->items, tokens->room * sizeof *tokens->items);
        if (!tokens->items) exit(1);
    }
    tokens->items[tokens->len++] = (struct token){kind, start, end};
}

static struct tokens lex(const uint8_t *s, size_t n) {
    struct tokens tokens = {0};
    size_t at = n >= 3 && !memcmp(s, "\xEF\xBB\xBF", 3) ? 3 : 0;
    while (at < n) {
        size_t start = at;
        uint8_t kind = SYMBOL_TOKEN;
        switch (class_of[s[at]]) {
        case SPACE:
            at++;
            continue;
        case LETTER:
            kind = IDENT;
            do at++;
            while (at < n && is_name(s[at]));
            break;
        case QUOTE:
            at = string_end(s, at, n, &kind);
            break;
        case SYMBOL:
            if (s[at] == '/' && at + 1 < n && s[at + 1] == '/') {
                while (at < n && s[at] != '\n') at++;
                continue;
            }
            if (s[at] == '/' && at + 1 < n && s[at + 1] == '*') {
                for (at += 2; at + 1 < n && !(s[at] == '*' && s[at + 1] == '/'); at++) {}
                if (at + 1 < n) {
                    at += 2;
                    continue;
                }
                at = n;
                kind = BAD_COMMENT;
                break;
            }
            if (s[at] != '.' || at + 1 == n || !is_digit(s[at + 1])) {
                at++;
                break;
            }
            // a dot and a digit begin a number
        case DIGIT: {
            int hex = s[at] == '0' && at + 1 < n && (s[at + 1] | 32) == 'x';
            at = number_end(s, at, n, hex);
            kind = number_kind(s, start, at, hex);
            break;
        }
        default:
            kind = BAD_CHARACTER;
            at++;
            if (s[start] >= 128) while (at < n && s[at] >= 128 && s[at] < 192) at++;
        }
        push(&tokens, kind, start, at);
    }
    return tokens;
}

static uint64_t now(void) {
    struct timespec time;
    clock_gettime(CLOCK_MONOTONIC, &time);
    return (uint64_t)time.tv_sec * 1000000000 + time.tv_nsec;
}

int main(int count, char **words) {
    FILE *file = count > 1 ? fopen(words[1], "rb") : stdin;
    if (!file) return 1;
    size_t room = 1 << 26, n;
    uint8_t *text = malloc(room);
    if (!text) return 1;
    n = fread(text, 1, room, file);
    fill_classes();
    uint64_t best = UINT64_MAX;
    size_t found = 0;
    for (int i = 0; i < 20; i++) {
        uint64_t start = now();
        struct tokens tokens = lex(text, n);
        uint64_t time = now() - start;
        if (time < best) best = time;
        found = tokens.len;
        free(tokens.items);
    }
    printf("%zu\n", found);
    fprintf(stderr, "%llu\n", (unsigned long long)best);
    return 0;
}
