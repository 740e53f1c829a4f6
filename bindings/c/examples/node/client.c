/* A client: a router, and one request after another. A router needs no log, since a digest and its repair bring it
 * all that others know. Each reply has to have the last put of the row that was acknowledged. */
#include "node.h"

#include <stdlib.h>
#include <string.h>

uint64_t rank_of(size_t row) {
    return squall_rank((uint32_t)(row / 2), (uint32_t)(row % 2) << 31);
}

/* The least number of requests: in three rounds each row is put twice, and got once. */
enum { LEAST = 3 * ROWS };

/* Each third request is a get, of other rows in each round. */
static bool is_get(const struct client *client) {
    return (client->done + client->done / ROWS) % 3 == 2;
}

static size_t row_of(const struct client *client) {
    return client->done * 7 % ROWS;
}

static void pass(uint32_t to, enum kind kind, const void *bytes, size_t len) {
    struct message message = {.from = CLIENT, .to = to, .kind = kind, .len = (uint32_t)len};
    memcpy(message.bytes, bytes, len);
    hub_pass(&message);
}

/* Asks the partition to which the errand has come. A request may go out twice: a put that comes again changes
 * nothing. */
static void ask(const struct client *client) {
    struct request request = {{rank_of(row_of(client)), client->done + 1}, client->step, 0, 0};
    request.after = squall_errand_number(client->errand);
    pass(squall_errand_asked(client->errand), is_get(client) ? GET : PUT, &request, sizeof request);
}

static void begin(struct client *client) {
    squall_errand_close(client->errand);
    squall_errand_start(client->router, rank_of(row_of(client)), client->errand);
    need(squall_errand_status(client->errand) == SQUALL_OK, "an errand");
    client->lost = false;
    ask(client);
}

static void end(struct client *client, uint64_t value) {
    size_t row = row_of(client);
    uint64_t own = is_get(client) ? client->put[row] : client->done + 1;
    /* A put that went out twice may find itself. */
    need(value == client->put[row] || value == own, "a row as it was put last");
    client->put[row] = own;
    client->done++;
    client->ended = client->stops && client->done >= LEAST;
    if (!client->ended) {
        begin(client);
    }
}

static void heed(struct client *client, const struct reply *reply) {
    const squall_answer *answer = &reply->answer;
    if (reply->step != client->step || client->ended) {
        return; /* It answers an earlier request, or came before. */
    }
    client->step++;
    switch (squall_errand_heed(client->errand, answer->reply, answer->part, answer->number)) {
    case SQUALL_SERVED:
        end(client, reply->value);
        break;
    case SQUALL_ASK:
        ask(client);
        break;
    case SQUALL_AGAIN: /* at the next tick */
        break;
    case SQUALL_LOST:
        client->lost = true;
        break;
    default:
        need(false, "a reply");
    }
}

void client_take(struct client *client, const struct message *message) {
    struct reply reply;
    if (message->kind == BOARD) {
        squall_router_hear(client->router, message->bytes, message->len);
    } else if (message->kind == REPLY) {
        memcpy(&reply, message->bytes, sizeof reply);
        heed(client, &reply);
    }
}

void client_tick(struct client *client) {
    uint8_t frame[BYTES];
    need(squall_router_gather_digest(client->router, BYTES) == SQUALL_OK, "a digest");
    size_t len = squall_router_frame(client->router, frame, BYTES);
    pass(LEADER, DIGEST, frame, len);
    if (client->lost) {
        begin(client);
    } else if (!client->ended) {
        ask(client);
    }
}

void client_open(struct client *client) {
    const uint8_t *plan = (const uint8_t *)PLAN_TEXTS[0];
    size_t len = strlen(PLAN_TEXTS[0]);
    *client = (struct client){0};
    client->router = room_of(squall_router_size());
    client->errand = room_of(squall_errand_size());
    squall_router_open(1, plan, len, plan, len, client->router);
    need(squall_router_status(client->router) == SQUALL_OK, "a router");
    squall_errand_start(client->router, rank_of(row_of(client)), client->errand);
    need(squall_errand_status(client->errand) == SQUALL_OK, "an errand");
}

void client_close(struct client *client) {
    squall_errand_close(client->errand);
    squall_router_close(client->router);
    free(client->errand);
    free(client->router);
}
