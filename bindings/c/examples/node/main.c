/* A deployment of four processes: a leader and three partitions with rows, each with a log on disk.
 *
 *     node DIR               makes the folder DIR for the logs, and moves rows from plan to plan
 *     node DIR --kill SEED   kills one of the four meanwhile, and starts it again over its log. Messages are lost,
 *                            and come late
 *
 * The hub is a fifth process: it starts the others, passes messages between them, and has a client that puts
 * and gets rows. At the end the hub reads all logs, and prints three facts that then hold. If one does not, the
 * status is 1.
 *
 * Each node is one thread, so it makes one call at a time (squall.h, rule 3). No process has threads, so a child
 * of a fork may call functions (rule 8). */
#define _POSIX_C_SOURCE 200809L
#include "node.h"

#include <errno.h>
#include <fcntl.h>
#include <inttypes.h>
#include <poll.h>
#include <signal.h>
#include <stdlib.h>
#include <string.h>
#include <sys/socket.h>
#include <sys/stat.h>
#include <sys/wait.h>
#include <unistd.h>

/* Who is killed, and when. */
struct killing {
    uint32_t victim;    /* CLIENT for none */
    struct death death; /* by itself */
    size_t messages;    /* by the hub, after so many messages to it; 0 for never */
};

static struct hub {
    int folder;
    int lines[NODES]; /* -1 if the node has ended */
    pid_t pids[NODES];
    struct killing killing;
    bool loses;    /* messages */
    uint64_t seed; /* of random numbers */
    bool stopping; /* the nodes were told to stop */
} hub = {.lines = {-1, -1, -1, -1}};

/* The next random number (splitmix64). */
static size_t random_below(size_t bound) {
    uint64_t x = hub.seed += UINT64_C(0x9E3779B97F4A7C15);
    x = (x ^ (x >> 30)) * UINT64_C(0xBF58476D1CE4E5B9);
    x = (x ^ (x >> 27)) * UINT64_C(0x94D049BB133111EB);
    return (size_t)((x ^ (x >> 31)) % bound);
}

/* ---- processes */

/* The socket keeps messages apart: one comes whole or not at all. */
static void start(uint32_t id, struct death death) {
    int ends[2];
    need(socketpair(AF_UNIX, SOCK_SEQPACKET, 0, ends) == 0, "a line");
    hub.pids[id] = fork();
    need(hub.pids[id] >= 0, "a process");
    if (hub.pids[id] == 0) {
        /* A line that others hold open would not say that its process is dead. */
        for (uint32_t other = 0; other < NODES; other++) {
            if (hub.lines[other] >= 0) {
                close(hub.lines[other]);
            }
        }
        close(ends[0]);
        node_run(id, hub.folder, ends[1], death);
        exit(0);
    }
    close(ends[1]);
    hub.lines[id] = ends[0];
}

/* A process has closed its line. It is started again only once it has ended. */
static void bury(uint32_t id) {
    int status;
    close(hub.lines[id]);
    hub.lines[id] = -1;
    need(waitpid(hub.pids[id], &status, 0) == hub.pids[id], "a process that ends");
    if (WIFEXITED(status) && WEXITSTATUS(status) == 0 && hub.stopping) {
        return;
    }
    need(WIFSIGNALED(status) && WTERMSIG(status) == SIGKILL && id == hub.killing.victim, "a node that lives");
    fprintf(stderr, "node %" PRIu32 ": killed\n", id);
    hub.killing.victim = CLIENT;
    start(id, (struct death){0});
}

/* ---- messages */

static void deliver(const struct message *message) {
    size_t len = offsetof(struct message, bytes) + message->len;
    for (uint32_t id = 0; id < NODES; id++) {
        bool goes = message->to == id || (message->to == ALL && message->from != id);
        if (goes && hub.lines[id] >= 0) {
            /* If the line is full, the message is lost: the hub waits for nobody. */
            send(hub.lines[id], message, len, MSG_DONTWAIT | MSG_NOSIGNAL);
            if (id == hub.killing.victim && hub.killing.messages != 0 && --hub.killing.messages == 0) {
                kill(hub.pids[id], SIGKILL);
            }
        }
    }
}

/* What comes to a node may be lost, come again or come late (docs/RUNS.md, rule 4). */
void hub_pass(const struct message *message) {
    static struct message late;
    size_t fate = hub.loses ? random_below(16) : 16;
    if (fate != 0) {
        deliver(message);
    }
    if (fate == 1) {
        deliver(&late);
        late = *message;
    }
}

/* ---- the run */

static void receive(struct client *client, uint32_t id) {
    struct message message;
    ssize_t len = recv(hub.lines[id], &message, sizeof message, 0);
    if (len < 0 && errno == ECONNRESET) {
        return; /* It died with messages unread. What it sent before comes next. */
    }
    if (len <= 0) {
        bury(id);
        return;
    }
    hub_pass(&message);
    if (message.kind == OVER) {
        client->stops = true;
    } else if (message.to == CLIENT || message.to == ALL) {
        client_take(client, &message);
    }
}

/* A victim that has outlived its time is killed first. */
static void stop_nodes(void) {
    struct message message = {.from = CLIENT, .to = ALL, .kind = STOP};
    if (hub.killing.victim != CLIENT) {
        kill(hub.pids[hub.killing.victim], SIGKILL);
    } else {
        hub.stopping = true;
        hub_pass(&message);
    }
}

static size_t living(void) {
    size_t count = 0;
    for (uint32_t id = 0; id < NODES; id++) {
        count += hub.lines[id] >= 0;
    }
    return count;
}

static void run(struct client *client) {
    for (int64_t tick = now(); living() != 0;) {
        struct pollfd ready[NODES] = {{0}};
        for (uint32_t id = 0; id < NODES; id++) {
            ready[id] = (struct pollfd){.fd = hub.lines[id], .events = POLLIN};
        }
        int64_t left = tick - now();
        if (poll(ready, NODES, left > 0 ? (int)left : 0) == 0) {
            client_tick(client);
            if (client->ended) {
                stop_nodes();
            }
            tick = now() + TICK;
        }
        for (uint32_t id = 0; id < NODES; id++) {
            if (ready[id].revents != 0) {
                receive(client, id);
            }
        }
    }
}

/* ---- what has to hold at the end */

/* The log leads to the state that the process had. */
static void check_state(struct node *node) {
    char name[16];
    char *again = NULL;
    size_t len;
    FILE *stream = open_memstream(&again, &len);
    need(stream != NULL, "memory");
    node_show(node, stream);
    need(fclose(stream) == 0, "memory");
    snprintf(name, sizeof name, "%" PRIu32 ".state", node->id);
    int file = openat(hub.folder, name, O_RDONLY | O_CLOEXEC);
    char *state = room_of(len + 1);
    need(file >= 0 && read(file, state, len + 1) == (ssize_t)len && memcmp(state, again, len) == 0,
         "a log that leads to the state");
    close(file);
    free(state);
    free(again);
}

/* The partition holds the keys that the plan gives it, and no others. */
static void check_keys(const struct node *node, const squall_leg *legs, size_t count) {
    squall_span span;
    size_t held = 0;
    for (size_t i = 0; i < count; i++) {
        if (legs[i].part == node->id) {
            need(squall_part_held(node->part, held++, &span, 1) == 1 && span.lo == legs[i].lo &&
                     span.hi == legs[i].hi,
                 "keys where the plan has them");
        }
    }
    need(squall_part_held(node->part, held, &span, 1) == 0, "keys that are held once");
}

/* Each row is where its key is, as it was put last, and nowhere else. */
static void check_rows(struct node *const *nodes, const uint64_t *put, const squall_leg *legs, size_t count) {
    size_t rows = 0, right = 0;
    for (uint32_t id = 1; id < NODES; id++) {
        rows += nodes[id]->count;
    }
    for (size_t row = 0; row < ROWS; row++) {
        uint64_t rank = rank_of(row);
        size_t leg = 0;
        while (leg < count && legs[leg].hi <= rank) {
            leg++;
        }
        const struct node *owner = nodes[legs[leg].part];
        for (size_t i = 0; i < owner->count; i++) {
            right += owner->rows[i].rank == rank && owner->rows[i].value == put[row];
        }
    }
    need(rows == ROWS && right == ROWS, "rows that were acknowledged");
}

static void check(const struct client *client) {
    struct node *nodes[NODES];
    squall_leg legs[8];
    squall_course *course = room_of(squall_course_size());
    for (uint32_t id = 0; id < NODES; id++) {
        nodes[id] = node_open(id, hub.folder);
        check_state(nodes[id]);
    }
    squall_leader_course(nodes[LEADER]->leader, course);
    need(squall_course_number(course) == PLANS, "the last course");
    size_t count = squall_course_new(course, 0, legs, 8);
    for (uint32_t id = 1; id < NODES; id++) {
        check_keys(nodes[id], legs, count);
    }
    check_rows(nodes, client->put, legs, count);
    squall_course_close(course);
    free(course);
    for (uint32_t id = 0; id < NODES; id++) {
        node_close(nodes[id]);
    }
}

/* ---- the command */

/* A process dies within a flush, between a flush and what follows from it, or anywhere. */
static struct killing any_killing(void) {
    struct killing killing = {.victim = (uint32_t)random_below(NODES)};
    bool leads = killing.victim == LEADER; /* It makes fewer calls, and hears less. */
    size_t how = random_below(4);
    if (how == 0) {
        killing.messages = 1 + random_below(leads ? 50 : 150);
    } else {
        killing.death.flush = 1 + random_below(leads ? 15 : 60);
    }
    if (how > 1) {
        /* Records of rows have 28 bytes, and those of boards hundreds. */
        killing.death.cut = 1 + random_below(how == 2 ? 28 : 500);
        killing.death.zeros = random_below(2) != 0;
    }
    return killing;
}

int main(int argc, char **argv) {
    struct client client;
    bool kills = argc == 4 && strcmp(argv[2], "--kill") == 0;
    if (argc != 2 && !kills) {
        fputs("usage: node DIR [--kill SEED]\n", stderr);
        return 2;
    }
    hub.loses = kills;
    hub.seed = kills ? strtoull(argv[3], NULL, 10) : 0;
    hub.killing = kills ? any_killing() : (struct killing){.victim = CLIENT};
    need(mkdir(argv[1], 0777) == 0, "to make the folder");
    hub.folder = open(argv[1], O_RDONLY | O_DIRECTORY | O_CLOEXEC);
    need(hub.folder >= 0, "the folder");
    for (uint32_t id = 0; id < NODES; id++) {
        start(id, id == hub.killing.victim ? hub.killing.death : (struct death){0});
    }
    client_open(&client);
    run(&client);
    check(&client);
    client_close(&client);
    close(hub.folder);
    puts("each put that was acknowledged is there\n"
         "each key is held once, and where the last plan has it\n"
         "each log leads to the state that its process had");
    return 0;
}
