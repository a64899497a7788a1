/* Runs the cases that hold for every COBS library (level `owed`) with a library that has the two usual calls. The cases are read
 * from standard input. To test another library, change the include and the two calls in `result_of`. */
#include "plain.h"

#include <stdio.h>
#include <stdlib.h>
#include <string.h>

enum { MOST_BYTES = 131072, MOST_LINE = 8192, MOST_WORDS = 256 };

static uint8_t given[MOST_BYTES], wanted[MOST_BYTES], made[2 * MOST_BYTES];

/* Converts a word to bytes. Two digits are a byte. After a star, a number says how often the bytes since the last plus are
 * repeated. */
static size_t bytes_of(const char *word, uint8_t *bytes)
{
    size_t length = 0, part = 0;
    while (*word && *word != '-') {
        if (*word == '+') {
            part = length;
            word++;
        } else if (*word == '*') {
            char *end;
            size_t size = length - part;
            for (unsigned long count = strtoul(word + 1, &end, 10); count > 1; count--, length += size)
                memcpy(bytes + length, bytes + part, size);
            word = end;
        } else {
            char digits[] = { word[0], word[1], '\0' };
            bytes[length++] = (uint8_t)strtoul(digits, NULL, 16);
            word += 2;
        }
    }
    return length;
}

static int is_made(const char *word, size_t length)
{
    return bytes_of(word, wanted) == length && memcmp(made, wanted, length) == 0;
}

/* Makes the call, and compares its result with the words after `->`. Returns 1 if they are equal, 0 if they aren't, and -1 for a
 * call that this library doesn't have. */
static int result_of(const char *call, char **words)
{
    size_t length = bytes_of(words[0], given);

    if (strcmp(call, "encode_vec") == 0) /* message -> frame */
        return is_made(words[2], cobs_encode(given, length, made));
    if (strcmp(call, "decode_vec") == 0) { /* frame -> status length message */
        length = cobs_decode(given, length, made);
        if (length == COBS_INVALID)
            return strcmp(words[2], "refused") == 0;
        return strcmp(words[2], "ok") == 0 && is_made(words[4], length);
    }
    return -1;
}

int main(void)
{
    static char line[MOST_LINE];
    unsigned cases = 0, differ = 0, missing = 0;

    while (fgets(line, sizeof line, stdin)) {
        char *words[MOST_WORDS] = { 0 };
        size_t count = 0;
        for (char *word = strtok(line, " \n"); word && count < MOST_WORDS; word = strtok(NULL, " \n"))
            words[count++] = word;
        if (count < 5 || words[0][0] == '#' || strcmp(words[1], "owed") != 0)
            continue;
        int same = result_of(words[2], words + 3);
        cases += same >= 0;
        missing += same < 0;
        if (same == 0) {
            differ++;
            printf("%s differs\n", words[0]);
        }
    }
    printf("%u cases, %u differ, %u of calls that it does not have\n", cases, differ, missing);
    return differ != 0;
}
