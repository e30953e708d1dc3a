/*
 * Says in words whether two events of a dump race: judge DUMP P Q
 *
 * The exit status is 0 for race and no race, 1 for a refusal, and 2 where the dump cannot be
 * read or the arguments are no two numbers.
 */
#include <errno.h>
#include <stdio.h>
#include <stdlib.h>
#include <string.h>

#include "lenogneiss.h"

struct bytes {
    uint8_t *at;
    size_t length;
};

/* Reads a whole file, and says whether that went well. An empty file has no memory. */
static int read_file(const char *name, struct bytes *out)
{
    uint8_t block[4096];
    size_t got;
    FILE *file = fopen(name, "rb");
    if (file == NULL)
        return 0;
    while ((got = fread(block, 1, sizeof block, file)) > 0) {
        uint8_t *more = realloc(out->at, out->length + got);
        if (more == NULL)
            break;
        out->at = more;
        memcpy(out->at + out->length, block, got);
        out->length += got;
    }
    int whole = feof(file) && !ferror(file);
    fclose(file);
    return whole;
}

/* Reads a decimal number, and says whether it is one. */
static int read_position(const char *text, size_t *out)
{
    char *end;
    if (text[0] < '0' || text[0] > '9')
        return 0;
    errno = 0;
    unsigned long long number = strtoull(text, &end, 10);
    *out = number;
    return errno == 0 && *end == '\0';
}

static const char *words(uint32_t answer)
{
    switch (answer) {
    case LENOGNEISS_NO_RACE:
        return "no race";
    case LENOGNEISS_RACE:
        return "race";
    case LENOGNEISS_LENGTH:
        return "refused 1: the length is no multiple of 8";
    case LENOGNEISS_KIND:
        return "refused 2: a record has no known kind";
    case LENOGNEISS_THREAD:
        return "refused 3: a record's thread is above its limit";
    case LENOGNEISS_SUBJECT:
        return "refused 4: a record's variable, lock or named thread is above its limit";
    case LENOGNEISS_ENDED:
        return "refused 15: a thread has an event after it was joined";
    case LENOGNEISS_NO_START:
        return "refused 14: a thread names itself, or spawns one that is not new";
    case LENOGNEISS_LOCK_HELD:
        return "refused 5: a lock is acquired that another thread holds";
    case LENOGNEISS_TOO_DEEP:
        return "refused 13: a lock would be held more than 255 deep";
    case LENOGNEISS_NOT_HOLDER:
        return "refused 6: a lock is released by a thread that does not hold it";
    case LENOGNEISS_FULL:
        return "refused 7: there are more records than the table holds";
    case LENOGNEISS_NO_EVENT:
        return "refused 8: there is no event at a position";
    case LENOGNEISS_ORDER:
        return "refused 9: the first position is not below the second";
    case LENOGNEISS_NO_CONFLICT:
        return "refused 10: the two events do not conflict";
    default:
        return "an unknown answer";
    }
}

int main(int argc, char **argv)
{
    struct bytes dump = {NULL, 0};
    size_t p, q;
    if (argc != 4 || !read_position(argv[2], &p) || !read_position(argv[3], &q)) {
        fprintf(stderr, "usage: judge DUMP P Q\n");
        return 2;
    }
    if (!read_file(argv[1], &dump)) {
        fprintf(stderr, "judge: %s cannot be read\n", argv[1]);
        free(dump.at);
        return 2;
    }
    uint32_t answer = lenogneiss_judge(dump.at, dump.length, p, q);
    free(dump.at);
    printf("%s\n", words(answer));
    return answer <= LENOGNEISS_RACE ? 0 : 1;
}
