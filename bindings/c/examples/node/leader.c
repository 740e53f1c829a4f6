/* The leader: begins one course after another, and opens their sub-plans. There is one leader (docs/RUNS.md,
 * rule 1): it is started again only once its process has ended, and the lock of its log keeps off any other. */
#include "node.h"

#include <stdlib.h>
#include <string.h>

/* Its first call begins course 1, with which all nodes are made. */
static void open_leader(struct node *node) {
    node->leader = room_of(squall_leader_size());
    squall_leader_open((const uint8_t *)PLAN_TEXTS[0], strlen(PLAN_TEXTS[0]), 0, node->leader);
    need(squall_leader_status(node->leader) == SQUALL_OK, "a leader");
}

static uint32_t make(struct node *node, uint32_t kind, const uint8_t *bytes, size_t len) {
    uint32_t numbers[2];
    uint32_t status = SQUALL_CLOSED;
    if (kind == BOARD) {
        status = squall_leader_hear(node->leader, bytes, len);
    } else if (kind == OPEN) {
        status = squall_leader_open_next(node->leader, numbers, 2);
    } else if (kind == BEGIN) {
        status = squall_leader_begin(node->leader, bytes, len);
        node->begun += status == SQUALL_OK;
    }
    return status;
}

/* No message is for a leader alone. */
static void take(struct node *node, const struct message *message) {
    (void)node;
    (void)message;
}

static bool is_over(const struct node *node) {
    return node->begun == PLANS && squall_leader_finished(node->leader);
}

static void remind(struct node *node) {
    if (is_over(node)) {
        node_send(node, CLIENT, OVER, "", 0);
    }
}

/* A sub-plan that is not done refuses the next one, so the leader just tries. */
static void work(struct node *node) {
    bool goes_on = !is_over(node);
    while (goes_on) {
        uint32_t status = node_call(node, OPEN, "", 0);
        if ((status == SQUALL_NO_MORE || status == SQUALL_IDLE) && node->begun < PLANS) {
            const char *plan = PLAN_TEXTS[node->begun];
            status = node_call(node, BEGIN, plan, strlen(plan));
        }
        goes_on = status == SQUALL_OK;
        node->changed |= goes_on;
    }
}

static uint32_t gather(struct node *node, enum kind kind) {
    return kind == BOARD    ? squall_leader_gather_board(node->leader, BYTES)
           : kind == DIGEST ? squall_leader_gather_digest(node->leader, BYTES)
                            : squall_leader_gather_repair(node->leader, BYTES);
}

static size_t frame(struct node *node, uint8_t *out, size_t room) {
    return squall_leader_frame(node->leader, out, room);
}

static void show(struct node *node, FILE *file) {
    fprintf(file, "%zu begun\n", node->begun);
}

static void close_leader(struct node *node) {
    squall_leader_close(node->leader);
    free(node->leader);
}

const struct role leader_role = {
    .open = open_leader,
    .make = make,
    .take = take,
    .work = work,
    .remind = remind,
    .gather = gather,
    .frame = frame,
    .show = show,
    .close = close_leader,
};
