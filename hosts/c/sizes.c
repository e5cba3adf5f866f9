/*
 * Calls the entry with all lent sizes around 0, the reply's own places and the
 * longest reply's, for each line of standard input. The reply lies at the very end
 * of memory of its own, so that a sanitizer or valgrind sees each byte past it;
 * each untouched place is compared.
 */
#include <stdio.h>
#include <stdlib.h>
#include <string.h>
#include "siptkvaro.h"

enum { AROUND = 9, MARK = 0xA5 };

/* A line, and its answer where the longest reply's places are lent. */
struct asked {
    unsigned long row;
    const uint8_t *line;
    size_t length;
    uint32_t number;
    size_t filled;
    uint8_t places[SIPTKVARO_LONGEST_REPLY];
};

static void hold(int holds, const struct asked *asked, size_t lent, const char *otherwise) {
    if (holds)
        return;
    fprintf(stderr, "sizes: line %lu with %zu places: %s\n", asked->row, lent, otherwise);
    exit(1);
}

static uint8_t *at_the_end(size_t size) {
    uint8_t *bytes = malloc(size > 0 ? size : 1);
    memset(bytes, MARK, size > 0 ? size : 1);
    return bytes;
}

static int untouched(const uint8_t *places, size_t count) {
    for (size_t i = 0; i < count; i++)
        if (places[i] != MARK)
            return 0;
    return 1;
}

static void call(const struct asked *asked, size_t lent) {
    uint32_t wanted = asked->number == 0 && lent < asked->filled ? 8 : asked->number;
    size_t places = wanted == 0 ? asked->filled : 0;
    uint8_t *reply = at_the_end(lent);
    size_t filled = lent + 1;
    uint32_t number = answer_counted(asked->line, asked->length, reply, lent, &filled);
    hold(number == wanted, asked, lent, "another number");
    hold(filled == places, asked, lent, "another count of places");
    hold(memcmp(reply, asked->places, places) == 0, asked, lent, "another reply");
    hold(untouched(reply + places, lent - places), asked, lent, "a place that is not the reply's was written");
    uint8_t *uncounted = at_the_end(lent);
    number = answer_line(asked->line, asked->length, uncounted, lent);
    hold(number == wanted && memcmp(uncounted, reply, lent) == 0, asked, lent, "answer_line answers otherwise");
    free(uncounted);
    free(reply);
}

static int near(size_t lent, size_t size) {
    return lent <= size + AROUND && size <= lent + AROUND;
}

int main(void) {
    char *line = NULL;
    size_t size = 0;
    ssize_t length;
    unsigned long calls = 0;
    struct asked asked;
    for (asked.row = 1; (length = getline(&line, &size, stdin)) >= 0; asked.row++) {
        if (length > 0 && line[length - 1] == '\n')
            length--;
        /* The request too lies at the very end of its memory. */
        uint8_t *request = at_the_end((size_t)length);
        memcpy(request, line, (size_t)length);
        asked.line = request;
        asked.length = (size_t)length;
        asked.number = answer_counted(request, asked.length, asked.places, sizeof asked.places, &asked.filled);
        for (size_t lent = 0; lent <= SIPTKVARO_LONGEST_REPLY + AROUND; lent++) {
            if (near(lent, 0) || near(lent, asked.filled) || near(lent, SIPTKVARO_LONGEST_REPLY)) {
                call(&asked, lent);
                calls++;
            }
        }
        free(request);
    }
    free(line);
    printf("%lu calls, every place as it should be\n", calls);
    return 0;
}
