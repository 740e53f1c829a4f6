/* A partition with its rows. A call and what it does to rows are one record, so keys and rows move in one step. */
#include "node.h"

#include <inttypes.h>
#include <stdlib.h>
#include <string.h>

/* A chunk has at most as many keys as a root. */
static const uint64_t MOST = UINT64_C(1) << 32;

static void open_part(struct node *node) {
    squall_course *course = first_course();
    node->part = room_of(squall_part_size());
    squall_part_open(node->id, course, node->part);
    need(squall_part_status(node->part) == SQUALL_OK, "a partition");
    squall_course_close(course);
    free(course);
}

/* ---- rows */

static struct row *find(struct node *node, uint64_t rank) {
    for (size_t i = 0; i < node->count; i++) {
        if (node->rows[i].rank == rank) {
            return &node->rows[i];
        }
    }
    return NULL;
}

static void put(struct node *node, struct row row) {
    struct row *old = find(node, row.rank);
    if (old == NULL) {
        need(node->count < ROWS, "room for a row");
        node->rows[node->count++] = row;
    } else if (old->value < row.value) {
        *old = row;
    }
}

/* Moves the rows of the cargo's chunk from the partition into the cargo. */
static void take_away(struct node *node) {
    size_t left = 0, moved = 0;
    for (size_t i = 0; i < node->count; i++) {
        struct row row = node->rows[i];
        if (node->cargo.chunk.lo <= row.rank && row.rank < node->cargo.chunk.hi) {
            node->cargo.rows[moved++] = row;
        } else {
            node->rows[left++] = row;
        }
    }
    node->count = left;
    node->cargo_len = offsetof(struct cargo, rows) + moved * sizeof(struct row);
    node->away = true;
}

/* ---- calls of the log */

static uint32_t give(struct node *node, const uint8_t *bytes) {
    uint64_t most;
    memcpy(&most, bytes, sizeof most);
    uint32_t status = squall_part_give(node->part, most, &node->cargo.chunk);
    if (status == SQUALL_OK) {
        take_away(node);
    }
    return status;
}

/* A chunk is loaded whole, as it was given (docs/RUNS.md, rule 3). No two chunks of a course overlap: if some keys
 * of a chunk were loaded before, no call would say which of its rows are new. */
static uint32_t load(struct node *node, const uint8_t *bytes, size_t len) {
    struct cargo cargo;
    need(len <= sizeof cargo, "a cargo");
    memcpy(&cargo, bytes, len);
    uint32_t status = squall_part_load(node->part, &cargo.chunk);
    if (status == SQUALL_OK) {
        for (size_t i = 0; i < (len - offsetof(struct cargo, rows)) / sizeof(struct row); i++) {
            put(node, cargo.rows[i]);
        }
        node->due = true;
        node->sub = cargo.chunk.sub;
    }
    return status;
}

static uint32_t finish(struct node *node, const uint8_t *bytes) {
    uint32_t sub;
    memcpy(&sub, bytes, sizeof sub);
    uint32_t status = squall_part_finish(node->part, sub);
    node->due = node->due && status != SQUALL_OK;
    return status;
}

static uint32_t make(struct node *node, uint32_t kind, const uint8_t *bytes, size_t len) {
    struct row row;
    switch (kind) {
    case BOARD:
        return squall_part_hear(node->part, bytes, len);
    case GIVE:
        return give(node, bytes);
    case LOAD:
        return load(node, bytes, len);
    case FINISH:
        return finish(node, bytes);
    case PUT:
        memcpy(&row, bytes, sizeof row);
        put(node, row);
        return SQUALL_OK;
    default:
        return SQUALL_CLOSED;
    }
}

/* ---- messages */

/* A row is put or got only if its key is held. Else the reply says where the client asks next. A put answers the
 * value that it replaces. */
static void serve(struct node *node, const struct message *message) {
    struct request request;
    struct reply reply = {0};
    memcpy(&request, message->bytes, sizeof request);
    reply.step = request.step;
    if (squall_part_serve(node->part, request.row.rank, request.after, &reply.answer) != SQUALL_OK) {
        return; /* That is no key. */
    }
    if (reply.answer.reply == SQUALL_HELD) {
        const struct row *row = find(node, request.row.rank);
        reply.value = row != NULL ? row->value : 0;
        if (message->kind == PUT) {
            node_call(node, PUT, &request.row, sizeof request.row);
        }
    }
    node_send(node, message->from, REPLY, &reply, sizeof reply);
}

static void take_cargo(struct node *node, const struct message *message) {
    uint32_t status = node_call(node, LOAD, message->bytes, message->len);
    /* Another status says that the opening of the sub-plan is still on its way. The cargo will come again. */
    if (status == SQUALL_OK || status == SQUALL_LOADED_BEFORE) {
        node_send(node, message->from, TAKEN, message->bytes, sizeof(squall_chunk));
    }
    node->changed |= status == SQUALL_OK;
}

static void take(struct node *node, const struct message *message) {
    if (message->kind == GET || message->kind == PUT) {
        serve(node, message);
    } else if (message->kind == LOAD) {
        take_cargo(node, message);
    } else if (message->kind == TAKEN) {
        /* This needs no record: after a crash the last cargo goes out again, and TAKEN comes again. */
        bool is_last = memcmp(message->bytes, &node->cargo.chunk, sizeof(squall_chunk)) == 0;
        node->away = node->away && !is_last;
    }
}

static void remind(struct node *node) {
    if (node->away) {
        node_send(node, node->cargo.chunk.dest, LOAD, &node->cargo, node->cargo_len);
    }
}

/* One cargo at a time is on its way, so all but the last one of a log were taken. */
static void work(struct node *node) {
    if (node->due && node_call(node, FINISH, &node->sub, sizeof node->sub) == SQUALL_OK) {
        node->changed = true;
    }
    if (!node->away && node_call(node, GIVE, &MOST, sizeof MOST) == SQUALL_OK) {
        remind(node);
    }
}

/* ---- the board, and the state */

static uint32_t gather(struct node *node, enum kind kind) {
    return kind == BOARD    ? squall_part_gather_board(node->part, BYTES)
           : kind == DIGEST ? squall_part_gather_digest(node->part, BYTES)
                            : squall_part_gather_repair(node->part, BYTES);
}

static size_t frame(struct node *node, uint8_t *out, size_t room) {
    return squall_part_frame(node->part, out, room);
}

static void show(struct node *node, FILE *file) {
    squall_span span;
    for (size_t at = 0; squall_part_held(node->part, at, &span, 1) != 0; at++) {
        fprintf(file, "holds %" PRIx64 " %" PRIx64 "\n", span.lo, span.hi);
    }
    for (uint32_t number = 1; number <= PLANS; number++) {
        for (size_t at = 0; squall_part_given(node->part, number, at, &span, 1) != 0; at++) {
            fprintf(file, "gave %" PRIu32 " %" PRIx64 " %" PRIx64 "\n", number, span.lo, span.hi);
        }
        for (size_t at = 0; squall_part_loaded(node->part, number, at, &span, 1) != 0; at++) {
            fprintf(file, "loaded %" PRIu32 " %" PRIx64 " %" PRIx64 "\n", number, span.lo, span.hi);
        }
    }
    for (size_t i = 0; i < node->count; i++) {
        fprintf(file, "row %" PRIx64 " %" PRIu64 "\n", node->rows[i].rank, node->rows[i].value);
    }
    fprintf(file, "cargo %zu %d\n", node->cargo_len, node->due);
}

static void close_part(struct node *node) {
    squall_part_close(node->part);
    free(node->part);
}

const struct role part_role = {
    .open = open_part,
    .make = make,
    .take = take,
    .work = work,
    .remind = remind,
    .gather = gather,
    .frame = frame,
    .show = show,
    .close = close_part,
};
