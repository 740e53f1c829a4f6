/* What each status of squall.h means, in English.
 *
 * No header is included: the toolchain, whose compiler builds this file, has none. message_tests.c looks at each
 * status of the header. */
typedef __UINT32_TYPE__ uint32_t;

const char *squall_message(uint32_t status);

struct message {
    uint32_t status;
    const char *text;
};

/* The fault of a plan has a number of its own for the new plan, 20 above the other one. */
#define PLAN(status, text) {status, "the text is no plan: " text}, {status + 20, "the new text is no plan: " text}
#define FRAME(status, text) {status, "no frame: " text}

static const struct message MESSAGES[] = {
    {0, "it was done"},
    {1, "an allocation failed"},
    {2, "a number or a rank is outside its limits, or the span has no keys"},
    {3, "nothing is open here"},
    {4, "the stream ended with a fault before, and takes no more bytes"},
    {5, "a frame would have more bytes than it may have"},
    {6, "no digest was heard that could be answered"},
    {7, "the router would hear of more than its limit"},

    PLAN(11, "the bytes are no JSON, or no UTF-8"),
    PLAN(12, "this entry, or the text if no entry is named, lacks a member or has one of another form"),
    PLAN(13, "the partition of this entry is above 9999"),
    PLAN(14, "this entry has a pair that is no bound"),
    PLAN(15, "the 'from' of this entry is not below its 'to'"),
    PLAN(16, "there are more than 4096 entries"),
    PLAN(17, "this key is in two ranges"),
    PLAN(18, "this key is in no range"),

    FRAME(51, "the first two bytes are not those of a frame"),
    FRAME(52, "the version is not known"),
    FRAME(53, "the kind is neither that of a delta nor that of a digest"),
    FRAME(54, "the body is to have more than 1,048,576 bytes"),
    FRAME(55, "the bytes end within the frame"),
    FRAME(56, "the body has too few bytes left for its next item"),
    FRAME(57, "a field is outside its limits, or a cell says nothing"),
    FRAME(58, "an item does not come after the one before it"),
    FRAME(59, "bytes are left in the body after its last item, or follow a whole frame"),

    {71, "as far as the partition knows, the sub-plan is not opened"},
    {72, "the partition holds no key that goes out in the sub-plan opened last"},
    {73, "no key was asked for"},
    {74, "the key does not go out in the sub-plan opened last"},
    {75, "the key was given under this course before"},
    {76, "the key goes out, and is neither given nor held"},
    {77, "no known course brings these keys to this partition so"},
    {78, "keys that come in are missing"},
    {79, "no key comes in, in that sub-plan"},
    {80, "each key of the chunk was loaded before"},
    {81, "the partition gives no more in its newest course"},

    {91, "the course begun last is not over"},
    {92, "the greatest number is used"},
    {93, "no course is begun"},
    {94, "a partition has not reported that it has all keys of the sub-plan opened last"},
    {95, "all sub-plans are opened, and the last one is done"},
};

const char *squall_message(uint32_t status) {
    for (unsigned i = 0; i < sizeof MESSAGES / sizeof MESSAGES[0]; i++) {
        if (MESSAGES[i].status == status) {
            return MESSAGES[i].text;
        }
    }
    return "the status is not known";
}
