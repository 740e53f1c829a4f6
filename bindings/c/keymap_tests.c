/* Tests of the keys of rows over the vectors of integrations/keymap.txt, whose name is the word of this
 * program. The last line is `N passed, M failed`. */
#include "check.h"

/* The file with the vectors. */
static const char *vectors;

/* Each line of the file has the bytes of a row in hex digits, and its key. */
static void the_vectors(void) {
    FILE *file = fopen(vectors, "r");
    char line[512];
    int count = 0;
    CHECK(file != NULL);
    while (file != NULL && fgets(line, sizeof line, file) != NULL) {
        char hex[256];
        uint8_t bytes[128];
        unsigned root;
        unsigned second;
        if (line[0] == '#' || sscanf(line, "%255s %u:%u", hex, &root, &second) != 3) {
            continue;
        }
        size_t len = bytes_of_hex(hex, bytes, sizeof bytes);
        CHECK(squall_key_of(bytes, len) == squall_rank(root, second));
        count++;
    }
    CHECK(count >= 50);
    if (file != NULL) {
        fclose(file);
    }
}

/* Each row has a key: no hash reaches the end of all keys. */
static void rows_have_keys(void) {
    for (uint32_t seed = 0; seed < 100000; seed++) {
        CHECK(squall_key_of((const uint8_t *)&seed, sizeof seed) < SQUALL_TOP);
    }
}

/* A row of no bytes, by a pointer to none. */
static void no_bytes(void) {
    uint8_t none = 0;
    CHECK(squall_key_of(&none, 0) == squall_rank(2238767696u, 2027635234u));
}

int main(int argc, char **argv) {
    static const struct test TESTS[] = {TEST(the_vectors), TEST(rows_have_keys), TEST(no_bytes)};
    if (argc != 2) {
        puts("usage: keymap_tests FILE");
        return 2;
    }
    vectors = argv[1];
    return run_tests(TESTS, sizeof TESTS / sizeof *TESTS);
}
