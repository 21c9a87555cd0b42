/* Copies standard input into a growing buffer, in pieces of 8 KiB, and prints how many bytes there are. */
#include <stdio.h>
#include <stdlib.h>
#include <string.h>
#include <unistd.h>

int main(void) {
    static char piece[8192];
    char *body = NULL;
    size_t length = 0, capacity = 0;
    for (;;) {
        ssize_t count = read(0, piece, sizeof piece);
        if (count <= 0)
            break;
        if (length + (size_t)count > capacity) {
            capacity = capacity ? 2 * capacity : 8192;
            while (capacity < length + (size_t)count)
                capacity *= 2;
            body = realloc(body, capacity);
            if (!body)
                return 1;
        }
        memcpy(body + length, piece, (size_t)count);
        length += (size_t)count;
    }
    printf("%zu bytes, last %d\n", length, length ? body[length - 1] : 0);
    return 0;
}
