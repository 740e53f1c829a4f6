/* What the files of the deployment share. main.c says what it is. */
#ifndef NODE_H
#define NODE_H

#include "squall.h"

#include <stdbool.h>
#include <stdio.h>

/* Node 0 is the leader, and nodes 1 to 3 are partitions. Messages also go to the client, and to all. */
enum { LEADER = 0, NODES = 4, CLIENT = 4, ALL = 5 };

enum {
    ROWS = 24,         /* of the whole deployment */
    PLANS = 3,         /* the courses lead from one to the next */
    BYTES = 8192,      /* of a message or a record, at most */
    BATCH = 4 * BYTES, /* of the records of one flush, at most */
    OUT = 16,          /* messages that wait for a flush, at most */
    TICK = 5           /* milliseconds until what may be lost is sent again */
};

/* Kinds of messages and of records. A message that is a call has the bytes of its record. */
enum kind {
    BOARD,  /* a frame of a board or of a repair; its record says that it was heard */
    DIGEST, /* a frame of a digest */
    REPAIR, /* what a digest does not show; its frames go as BOARD */
    BEGIN,  /* record of the leader: it began the course to this plan */
    OPEN,   /* record of the leader: it opened the next sub-plan */
    GIVE,   /* record: the partition gave at most so many keys (8 bytes) */
    LOAD,   /* a chunk and its rows; its record says that both were loaded */
    FINISH, /* record: the partition finished the sub-plan (4 bytes) */
    TAKEN,  /* a chunk whose load is on the disk of its destination */
    PUT,    /* a request; its record has the row alone */
    GET,    /* a request */
    REPLY,  /* to a request */
    OVER,   /* the last course is over */
    STOP    /* the node writes its state and ends */
};

struct message {
    uint32_t from;
    uint32_t to;
    uint32_t kind;
    uint32_t len;
    uint8_t bytes[BYTES];
};

/* A row, whose value is the number of the put that wrote it. So a put that comes again changes nothing. */
struct row {
    uint64_t rank;
    uint64_t value;
};

/* What a PUT and a GET have. The value of a GET is no matter. */
struct request {
    struct row row;
    uint64_t step;   /* comes back with the reply */
    uint32_t after;  /* what squall_errand_number says */
    uint32_t unused; /* 0: no byte that is sent is padding */
};

struct reply {
    uint64_t step;
    uint64_t value; /* of the row before the request, if the key is held; 0 if there was none */
    squall_answer answer;
    uint32_t unused;
};

/* A chunk and its rows. A LOAD has as many bytes of this as there are rows. */
struct cargo {
    squall_chunk chunk;
    struct row rows[ROWS];
};

/* Ends the process if something does not hold. */
void need(bool holds, const char *what);

/* ---- log.c: records on disk */

/* When a process kills itself, for the test. If no bytes are cut, it does so after the flush, before it sends. */
struct death {
    size_t flush; /* in the flush of this number, from 1 on; 0 for never */
    size_t cut;   /* without so many of its last bytes */
    bool zeros;   /* with zeros in their place, as a loss of power may leave them */
};

struct log {
    int file;
    size_t used; /* bytes that wait for the flush */
    uint8_t batch[BATCH];
    struct death death;
};

typedef void log_taker(void *taker, uint32_t kind, const uint8_t *bytes, size_t len);

/* Opens the log of that name, gives its records to `take`, cuts off a torn tail, and answers its length. */
size_t log_open(struct log *log, int folder, const char *name, log_taker *take, void *taker);

/* Adds a record, which waits for the flush. */
void log_add(struct log *log, uint32_t kind, const uint8_t *bytes, size_t len);

/* Returns once all records are on disk. */
void log_flush(struct log *log);

void log_close(struct log *log);

/* ---- node.c: what the leader and the partitions have in common */

struct node {
    uint32_t id;
    const struct role *role;
    int line; /* to the hub */
    struct log log;
    size_t waiting; /* messages that leave after the flush */
    struct message out[OUT];
    bool changed; /* its board has news that were not sent */

    /* Of the leader. */
    squall_leader *leader;
    size_t begun; /* courses */

    /* Of a partition. */
    squall_part *part;
    size_t count;
    struct row rows[ROWS];
    struct cargo cargo; /* the chunk that was given last */
    size_t cargo_len;
    bool away; /* the destination of the cargo has not said TAKEN */
    bool due;  /* keys were loaded in sub-plan `sub`, and it is not finished */
    uint32_t sub;
};

/* What the leader and the partitions do differently. */
struct role {
    void (*open)(struct node *node);
    /* Makes a call, a new one or one of the log. */
    uint32_t (*make)(struct node *node, uint32_t kind, const uint8_t *bytes, size_t len);
    /* Takes a message that is not taken by all nodes alike. */
    void (*take)(struct node *node, const struct message *message);
    /* Makes the calls for which the time has come. */
    void (*work)(struct node *node);
    /* Sends again what may be lost. */
    void (*remind)(struct node *node);
    /* Makes the frames of its BOARD, of a DIGEST or of a REPAIR. */
    uint32_t (*gather)(struct node *node, enum kind kind);
    /* Writes the next of these frames. */
    size_t (*frame)(struct node *node, uint8_t *out, size_t room);
    /* Writes its state, but for its board. */
    void (*show)(struct node *node, FILE *file);
    void (*close)(struct node *node);
};

extern const struct role leader_role;
extern const struct role part_role;

/* Course 1 leads from the first plan to itself, course 2 to the second, and course 3 to the third. */
extern const char *const PLAN_TEXTS[PLANS];

/* A room of malloc, which aligns it (squall.h, rule 1). */
void *room_of(size_t size);

/* Opens course 1, with which all nodes are made. */
squall_course *first_course(void);

/* Opens a node, and makes the calls of its log. */
struct node *node_open(uint32_t id, int folder);

/* Runs a node until it is told to stop. The line leads to the hub. */
void node_run(uint32_t id, int folder, int line, struct death death);

/* Writes the state of a node. */
void node_show(struct node *node, FILE *file);

void node_close(struct node *node);

/* Makes a call, and adds it to the log if it is answered. */
uint32_t node_call(struct node *node, enum kind kind, const void *bytes, size_t len);

/* Sends a message once the log is flushed. */
void node_send(struct node *node, uint32_t to, enum kind kind, const void *bytes, size_t len);

/* Milliseconds of a clock that never goes back. */
int64_t now(void);

/* ---- client.c: puts and gets rows, one after another */

struct client {
    squall_router *router;
    squall_errand *errand; /* of the request */
    uint64_t done;         /* requests */
    uint64_t step;         /* rises with each reply that is heeded */
    bool lost;             /* the errand begins anew at the next tick */
    bool stops;            /* no request begins any more */
    bool ended;
    uint64_t put[ROWS]; /* the last value of each row that was acknowledged */
};

void client_open(struct client *client);

/* Takes a message to the client. */
void client_take(struct client *client, const struct message *message);

/* Sends again what may be lost. */
void client_tick(struct client *client);

void client_close(struct client *client);

/* The rank of the row of that index. */
uint64_t rank_of(size_t row);

/* ---- main.c */

/* Passes a message on. It is lost if its node is not there, or has no room for it. */
void hub_pass(const struct message *message);

#endif
