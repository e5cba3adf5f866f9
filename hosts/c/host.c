/*
 * A host in C: answers each line of standard input on standard output.
 *
 *   host          a reply, or the refusal in two decimal digits, for each line
 *   host guard    the same, with the places lent in the middle of a larger array,
 *                 and the bytes around them checked after each call
 */
#include <stdio.h>
#include <stdlib.h>
#include <string.h>
#include "siptkvaro.h"

enum { GUARD = 64, LENT = SIPTKVARO_LONGEST_REPLY };

static uint8_t lent[GUARD + LENT + GUARD];

static int all_are(const uint8_t *bytes, size_t count, uint8_t wanted) {
    for (size_t i = 0; i < count; i++)
        if (bytes[i] != wanted)
            return 0;
    return 1;
}

static void check_guards(size_t filled, uint8_t mark, unsigned long number) {
    const uint8_t *reply = lent + GUARD;
    if (all_are(lent, GUARD, mark) && all_are(reply + filled, LENT - filled + GUARD, mark))
        return;
    fprintf(stderr, "host: line %lu: a place outside the reply was written\n", number);
    exit(1);
}

int main(int count, char **words) {
    int guarded = count > 1 && strcmp(words[1], "guard") == 0;
    char *line = NULL;
    size_t size = 0;
    ssize_t length;
    for (unsigned long number = 1; (length = getline(&line, &size, stdin)) >= 0; number++) {
        uint8_t *reply = lent + GUARD;
        uint8_t mark = (uint8_t)(number * 37 + 1);
        if (length > 0 && line[length - 1] == '\n')
            length--;
        if (guarded)
            memset(lent, mark, sizeof lent);
        size_t filled;
        uint32_t refusal = answer_counted((const uint8_t *)line, (size_t)length, reply, LENT, &filled);
        if (guarded)
            check_guards(filled, mark, number);
        if (refusal == 0)
            fwrite(reply, 1, filled, stdout);
        else
            printf("%02u", (unsigned)refusal);
        putchar('\n');
    }
    int failed = ferror(stdin) || fflush(stdout) != 0;
    free(line);
    return failed;
}
