/* A routing proxy in small: says for each key which partition to ask, and hears frames from others.
 *
 *     proxy OLD NEW
 *
 * OLD and NEW are files with the text of a plan. Each line of standard input is answered by one:
 *
 *     key R:S      the partition to ask for the key
 *     frame HEX    its bytes, two digits each: `taken`, or `fault N` with the library's status where the bytes are no frame
 */
#define _POSIX_C_SOURCE 200809L
#include "squall.h"

#include <inttypes.h>
#include <stdio.h>
#include <stdlib.h>
#include <string.h>

struct text {
    uint8_t *bytes;
    size_t len;
};

/* The whole file. Its bytes are no null pointer, even where there are none. */
static int read_file(const char *name, struct text *text) {
    FILE *file = fopen(name, "rb");
    size_t room = 4096;
    size_t got;
    text->len = 0;
    text->bytes = malloc(room);
    if (file == NULL || text->bytes == NULL) {
        return -1;
    }
    while ((got = fread(text->bytes + text->len, 1, room - text->len, file)) > 0) {
        text->len += got;
        if (text->len == room) {
            uint8_t *more = realloc(text->bytes, room *= 2);
            if (more == NULL) {
                return -1;
            }
            text->bytes = more;
        }
    }
    int failed = ferror(file);
    fclose(file);
    return failed ? -1 : 0;
}

static void answer_key(const squall_router *router, const char *word) {
    uint32_t root, second;
    uint32_t part = SQUALL_NOWHERE;
    if (sscanf(word, "%" SCNu32 ":%" SCNu32, &root, &second) == 2) {
        part = squall_router_route(router, squall_rank(root, second));
    }
    if (part == SQUALL_NOWHERE) {
        puts("no key");
    } else {
        printf("%" PRIu32 "\n", part);
    }
}

/* What the hex digit stands for, or -1. */
static int digit(char c) {
    const char *digits = "0123456789abcdef";
    const char *at = c != '\0' ? strchr(digits, c) : NULL;
    return at != NULL ? (int)(at - digits) : -1;
}

/* Turns hex digits of lower case into the bytes that they spell, in place, and says how many. */
static size_t unhex(char *word) {
    size_t count = 0;
    while (digit(word[2 * count]) >= 0 && digit(word[2 * count + 1]) >= 0) {
        word[count] = (char)(16 * digit(word[2 * count]) + digit(word[2 * count + 1]));
        count++;
    }
    return count;
}

static void answer_frame(squall_router *router, char *word) {
    size_t len = unhex(word);
    uint32_t status = squall_router_feed(router, (const uint8_t *)word, len);
    if (status == SQUALL_OK) {
        puts("taken");
    } else {
        printf("fault %" PRIu32 "\n", status);
    }
}

static void answer_lines(squall_router *router) {
    char *line = NULL;
    size_t room = 0;
    while (getline(&line, &room, stdin) > 0) {
        if (strncmp(line, "key ", 4) == 0) {
            answer_key(router, line + 4);
        } else if (strncmp(line, "frame ", 6) == 0) {
            answer_frame(router, line + 6);
        } else {
            puts("no such line");
        }
        fflush(stdout);
    }
    free(line);
}

int main(int argc, char **argv) {
    struct text old, new;
    if (argc != 3 || read_file(argv[1], &old) != 0 || read_file(argv[2], &new) != 0) {
        fputs("usage: proxy OLD NEW\n", stderr);
        return 2;
    }
    squall_router *router = malloc(squall_router_size());
    if (router == NULL) {
        return 1;
    }
    squall_router_open(1, old.bytes, old.len, new.bytes, new.len, router);
    free(old.bytes);
    free(new.bytes);
    uint32_t status = squall_router_status(router);
    if (status == SQUALL_OK) {
        answer_lines(router);
    } else {
        fprintf(stderr, "no router: status %" PRIu32 " at %" PRIu64 "\n", status,
                squall_router_fault_at(router));
    }
    squall_router_close(router);
    free(router);
    return status == SQUALL_OK ? 0 : 1;
}
