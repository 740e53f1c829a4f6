/* The library's header, with handles of which cgo knows that they hold no Go pointers. If their types
 * were left incomplete, it would look at the handle in each call, and allocate 8 bytes for that. */
#ifndef SQUALL_GO_LIBRARY_H
#define SQUALL_GO_LIBRARY_H

#include <stdlib.h>

/* The first byte of a room, which nobody looks at here. */
struct squall_router {
    unsigned char first;
};
struct squall_view {
    unsigned char first;
};
struct squall_errand {
    unsigned char first;
};
struct squall_course {
    unsigned char first;
};
struct squall_part {
    unsigned char first;
};
struct squall_leader {
    unsigned char first;
};

#include "squall.h"

/* An errand in a room of its own, and the status of its opening. A call from Go costs more than a route,
 * and each request may have an errand. So one call opens it, and one call closes it. */
struct started {
    squall_errand *errand;
    uint32_t status;
};

/* Starts an errand by a router, or by a view if the router is a null pointer. */
static inline struct started start_errand(const squall_router *router, const squall_view *view,
                                          uint64_t rank) {
    squall_errand *room = malloc(squall_errand_size());
    if (room == NULL) {
        return (struct started){NULL, SQUALL_NO_MEMORY};
    }
    if (router != NULL) {
        squall_errand_start(router, rank, room);
    } else {
        squall_errand_start_at(view, rank, room);
    }
    return (struct started){room, squall_errand_status(room)};
}

/* Closes a handle and frees its room. */
#define SQUALL_GO_END(kind)                         \
    static inline void end_##kind(squall_##kind *at) { \
        squall_##kind##_close(at);                  \
        free(at);                                   \
    }

SQUALL_GO_END(router)
SQUALL_GO_END(view)
SQUALL_GO_END(errand)
SQUALL_GO_END(course)
SQUALL_GO_END(part)
SQUALL_GO_END(leader)

/* Where one key is, by a view that is open. Go would allocate memory for an answer by a pointer. */
static inline squall_place place_of(const squall_view *view, uint64_t rank) {
    squall_place place;
    squall_view_locate(view, &rank, 1, &place, 1);
    return place;
}

#endif
