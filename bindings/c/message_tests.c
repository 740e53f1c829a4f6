/* Tests of the texts of statuses: each status of squall.h has one of its own, and all other numbers share one.
 * The last line is `N passed, M failed`. */
#include "check.h"

enum { NUMBERS = 256 };

/* Of each number below 256: whether it is a status of the header. The compiler warns if a status has no case. */
static bool is_status(uint32_t number) {
    switch ((enum squall_status)number) {
    case SQUALL_OK:
    case SQUALL_NO_MEMORY:
    case SQUALL_LIMIT:
    case SQUALL_CLOSED:
    case SQUALL_FAILED:
    case SQUALL_TOO_LONG:
    case SQUALL_NO_DIGEST:
    case SQUALL_FULL:
    case SQUALL_PLAN_JSON:
    case SQUALL_PLAN_SHAPE:
    case SQUALL_PLAN_BAD_PART:
    case SQUALL_PLAN_BAD_BOUND:
    case SQUALL_PLAN_EMPTY_RANGE:
    case SQUALL_PLAN_TOO_MANY:
    case SQUALL_PLAN_OVERLAP:
    case SQUALL_PLAN_GAP:
    case SQUALL_NEW_PLAN_JSON:
    case SQUALL_NEW_PLAN_SHAPE:
    case SQUALL_NEW_PLAN_BAD_PART:
    case SQUALL_NEW_PLAN_BAD_BOUND:
    case SQUALL_NEW_PLAN_EMPTY_RANGE:
    case SQUALL_NEW_PLAN_TOO_MANY:
    case SQUALL_NEW_PLAN_OVERLAP:
    case SQUALL_NEW_PLAN_GAP:
    case SQUALL_FRAME_MAGIC:
    case SQUALL_FRAME_VERSION:
    case SQUALL_FRAME_KIND:
    case SQUALL_FRAME_TOO_LONG:
    case SQUALL_FRAME_SHORT:
    case SQUALL_FRAME_COUNT:
    case SQUALL_FRAME_RANGE:
    case SQUALL_FRAME_ORDER:
    case SQUALL_FRAME_SPARE:
    case SQUALL_NOT_OPEN:
    case SQUALL_NOTHING_LEFT:
    case SQUALL_ZERO_MAX:
    case SQUALL_NOT_OUTGOING:
    case SQUALL_GIVEN:
    case SQUALL_NOT_HELD:
    case SQUALL_STRANGER:
    case SQUALL_NOT_ALL:
    case SQUALL_NOTHING_DUE:
    case SQUALL_LOADED_BEFORE:
    case SQUALL_ENDED:
    case SQUALL_RUNNING:
    case SQUALL_NO_NUMBER:
    case SQUALL_IDLE:
    case SQUALL_NOT_DONE:
    case SQUALL_NO_MORE:
        return true;
    }
    return false;
}

static void each_status_has_a_text_of_its_own(void) {
    const char *unknown = squall_message(UINT32_MAX);
    for (uint32_t number = 0; number < NUMBERS; number++) {
        const char *text = squall_message(number);
        CHECK(is_status(number) == (strcmp(text, unknown) != 0));
        for (uint32_t other = 0; is_status(number) && other < number; other++) {
            CHECK(strcmp(text, squall_message(other)) != 0);
        }
    }
}

/* A text tells which of the two plans it is of, and that bytes are no frame. */
static void texts_say_of_what_they_are(void) {
    CHECK(strcmp(squall_message(SQUALL_NO_MEMORY), "an allocation failed") == 0);
    CHECK(strcmp(squall_message(SQUALL_PLAN_GAP), "the text is no plan: this key is in no range") == 0);
    CHECK(strcmp(squall_message(SQUALL_NEW_PLAN_GAP), "the new text is no plan: this key is in no range") == 0);
    CHECK(strcmp(squall_message(SQUALL_FRAME_SHORT), "no frame: the bytes end within the frame") == 0);
    CHECK(strcmp(squall_message(SQUALL_NO_MORE), "all sub-plans are opened, and the last one is done") == 0);
}

static void the_text_of_a_number_is_one_and_the_same(void) {
    CHECK(squall_message(SQUALL_LIMIT) == squall_message(SQUALL_LIMIT));
    CHECK(strcmp(squall_message(8), "the status is not known") == 0);
    CHECK(strcmp(squall_message(NUMBERS), "the status is not known") == 0);
}

static const struct test TESTS[] = {
    TEST(each_status_has_a_text_of_its_own),
    TEST(texts_say_of_what_they_are),
    TEST(the_text_of_a_number_is_one_and_the_same),
};

int main(void) {
    return run_tests(TESTS, sizeof TESTS / sizeof TESTS[0]);
}
