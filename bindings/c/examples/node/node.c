/* What the leader and the partitions have in common: one loop. A message becomes calls, and calls become records
 * of the log. Messages leave once these are on disk. */
#define _POSIX_C_SOURCE 200809L
#include "node.h"

#include <fcntl.h>
#include <inttypes.h>
#include <poll.h>
#include <stdlib.h>
#include <string.h>
#include <sys/socket.h>
#include <time.h>
#include <unistd.h>

const char *const PLAN_TEXTS[PLANS] = {
    /* It names all partitions, so all of them are made at the start (docs/RUNS.md, rule 2). */
    "{\"plan\":[{\"part\":1,\"from\":[0,0],\"to\":[6,0]},{\"part\":2,\"from\":[6,0],\"to\":[10,0]},"
    "{\"part\":3,\"from\":[10,0],\"to\":\"end\"}]}",
    /* Partition 1 sends to 2 and to 3, which takes two sub-plans. */
    "{\"plan\":[{\"part\":1,\"from\":[0,0],\"to\":[2,0]},{\"part\":3,\"from\":[2,0],\"to\":[4,0]},"
    "{\"part\":2,\"from\":[4,0],\"to\":[8,0]},{\"part\":3,\"from\":[8,0],\"to\":[10,0]},"
    "{\"part\":1,\"from\":[10,0],\"to\":[12,0]},{\"part\":3,\"from\":[12,0],\"to\":\"end\"}]}",
    /* Some keys go back to where they were. */
    "{\"plan\":[{\"part\":2,\"from\":[0,0],\"to\":[3,0]},{\"part\":1,\"from\":[3,0],\"to\":[9,0]},"
    "{\"part\":3,\"from\":[9,0],\"to\":\"end\"}]}"};

void need(bool holds, const char *what) {
    if (!holds) {
        fprintf(stderr, "failed: %s\n", what);
        exit(1);
    }
}

void *room_of(size_t size) {
    void *room = malloc(size);
    need(room != NULL, "a room");
    return room;
}

int64_t now(void) {
    struct timespec clock;
    need(clock_gettime(CLOCK_MONOTONIC, &clock) == 0, "a clock");
    return (int64_t)clock.tv_sec * 1000 + clock.tv_nsec / 1000000;
}

/* All nodes are made with the same first course, and its number is 1 (docs/RUNS.md, rule 1). This one moves
 * nothing. */
squall_course *first_course(void) {
    const uint8_t *text = (const uint8_t *)PLAN_TEXTS[0];
    size_t len = strlen(PLAN_TEXTS[0]);
    squall_course *course = room_of(squall_course_size());
    squall_course_open(1, text, len, text, len, course);
    need(squall_course_status(course) == SQUALL_OK, "the first course");
    return course;
}

/* ---- calls and messages */

/* Each call that was answered is in the log before anything that follows from it leaves (docs/RUNS.md, rule 5). A
 * refused call changed nothing, and needs no line. */
uint32_t node_call(struct node *node, enum kind kind, const void *bytes, size_t len) {
    uint32_t status = node->role->make(node, kind, bytes, len);
    need(status != SQUALL_NO_MEMORY, "memory");
    if (status == SQUALL_OK) {
        log_add(&node->log, kind, bytes, len);
    }
    return status;
}

/* Nothing leaves a node but here. */
static void flush(struct node *node) {
    log_flush(&node->log);
    for (size_t i = 0; i < node->waiting; i++) {
        struct message *message = &node->out[i];
        size_t len = offsetof(struct message, bytes) + message->len;
        ssize_t sent = send(node->line, message, len, MSG_NOSIGNAL);
        need(sent == (ssize_t)len, "to send");
    }
    node->waiting = 0;
}

void node_send(struct node *node, uint32_t to, enum kind kind, const void *bytes, size_t len) {
    if (node->waiting == OUT) {
        flush(node);
    }
    need(len <= BYTES, "room in a message");
    struct message *message = &node->out[node->waiting++];
    message->from = node->id;
    message->to = to;
    message->kind = kind;
    message->len = (uint32_t)len;
    memcpy(message->bytes, bytes, len);
}

/* Sends the whole board, a digest or a repair, in the frames that the library makes (docs/RUNS.md, rule 4). */
static void send_frames(struct node *node, enum kind kind, uint32_t to) {
    uint8_t frame[BYTES];
    need(node->role->gather(node, kind) == SQUALL_OK, "frames");
    for (size_t len; (len = node->role->frame(node, frame, BYTES)) != 0;) {
        node_send(node, to, kind == REPAIR ? BOARD : kind, frame, len);
    }
}

/* ---- the log */

/* The same calls, made of a new node, lead to the same node: the laws one_partition and leader_replay. */
static void repeat(void *taker, uint32_t kind, const uint8_t *bytes, size_t len) {
    struct node *node = taker;
    need(node->role->make(node, kind, bytes, len) == SQUALL_OK, "a log of this node");
}

struct node *node_open(uint32_t id, int folder) {
    char name[16];
    struct node *node = calloc(1, sizeof *node);
    need(node != NULL, "a node");
    node->id = id;
    node->role = id == LEADER ? &leader_role : &part_role;
    node->role->open(node);
    snprintf(name, sizeof name, "%" PRIu32 ".log", id);
    size_t cut = log_open(&node->log, folder, name, repeat, node);
    if (cut != 0) {
        fprintf(stderr, "node %" PRIu32 ": a torn tail of %zu bytes is cut off\n", id, cut);
    }
    return node;
}

void node_close(struct node *node) {
    node->role->close(node);
    log_close(&node->log);
    free(node);
}

void node_show(struct node *node, FILE *file) {
    uint8_t frame[BYTES];
    node->role->show(node, file);
    need(node->role->gather(node, BOARD) == SQUALL_OK, "a board");
    for (size_t len; (len = node->role->frame(node, frame, BYTES)) != 0;) {
        for (size_t i = 0; i < len; i++) {
            fprintf(file, "%02x", frame[i]);
        }
        fputs("\n", file);
    }
}

/* ---- the loop */

/* A frame that is refused changes nothing. A digest needs no record: it decides what the next repair has, and
 * nothing else. */
static void take(struct node *node, const struct message *message) {
    if (message->kind == BOARD) {
        node_call(node, BOARD, message->bytes, message->len);
    } else if (message->kind == DIGEST) {
        if (node->role->make(node, BOARD, message->bytes, message->len) == SQUALL_OK) {
            send_frames(node, REPAIR, message->from);
        }
    } else {
        node->role->take(node, message);
    }
}

/* Waits for a message until that time. Answers whether one came. */
static bool receive(struct node *node, struct message *message, int64_t until) {
    struct pollfd ready = {.fd = node->line, .events = POLLIN};
    int64_t left = until - now();
    if (poll(&ready, 1, left > 0 ? (int)left : 0) == 0) {
        return false;
    }
    if (recv(node->line, message, sizeof *message, 0) <= 0) {
        _Exit(1); /* The hub has gone. */
    }
    return true;
}

static void write_state(struct node *node, int folder) {
    char name[16];
    snprintf(name, sizeof name, "%" PRIu32 ".state", node->id);
    int made = openat(folder, name, O_WRONLY | O_CREAT | O_TRUNC | O_CLOEXEC, 0666);
    FILE *file = made >= 0 ? fdopen(made, "w") : NULL;
    need(file != NULL, "a file");
    node_show(node, file);
    need(fclose(file) == 0, "to write a file");
}

/* After a crash this tells what the dead process may not have told, and asks for what it missed. */
static void greet(struct node *node) {
    node->changed = true;
    send_frames(node, DIGEST, ALL);
    node->role->remind(node);
}

void node_run(uint32_t id, int folder, int line, struct death death) {
    struct message message;
    struct node *node = node_open(id, folder);
    uint32_t peer = id;
    int64_t tick = now() + TICK;
    node->line = line;
    node->log.death = death;
    greet(node);
    for (;;) {
        node->role->work(node);
        if (node->changed) {
            send_frames(node, BOARD, ALL);
            node->changed = false;
        }
        flush(node);
        if (!receive(node, &message, tick)) {
            /* Any message may be lost, so nodes compare from time to time. */
            peer = (peer + 1) % NODES;
            send_frames(node, DIGEST, peer == id ? CLIENT : peer);
            node->role->remind(node);
            tick = now() + TICK;
        } else if (message.kind != STOP) {
            take(node, &message);
        } else {
            break;
        }
    }
    write_state(node, folder);
    node_close(node);
}
