/* One writer and eight readers. The writer takes loads and publishes a view after each; a lock orders
 * what the readers take. Each reader has a view of its own, routes by it without the lock, and checks
 * that it is the view of one moment: after v loads, the first v roots and no others have moved.
 *
 * Prints `N views, M readers` where all that was seen was so, and ends with status 1 otherwise. */
#include "squall.h"

#include <pthread.h>
#include <stdbool.h>
#include <stdio.h>
#include <stdlib.h>
#include <string.h>

enum { READERS = 8, ROOTS = 200, FROM = 1, TO = 2 };

/* What the threads share, under the lock. */
static pthread_mutex_t lock = PTHREAD_MUTEX_INITIALIZER;
static squall_view *newest;
static unsigned loads; /* how many the newest view has */

static squall_view *view_room(void) {
    squall_view *room = malloc(squall_view_size());
    if (room == NULL) {
        exit(2);
    }
    return room;
}

static void publish(const squall_router *router, unsigned count) {
    squall_view *next = view_room();
    squall_view_open(router, next);
    if (squall_view_status(next) != SQUALL_OK) {
        exit(2);
    }
    pthread_mutex_lock(&lock);
    squall_view *old = newest;
    newest = next;
    loads = count;
    pthread_mutex_unlock(&lock);
    if (old != NULL) {
        squall_view_close(old);
        free(old);
    }
}

/* Makes `mine` the newest view, and says how many loads it has. */
static unsigned learn(squall_view *mine) {
    pthread_mutex_lock(&lock);
    squall_view_again(newest, mine);
    unsigned count = loads;
    pthread_mutex_unlock(&lock);
    return count;
}

static bool is_of_one_moment(const squall_view *view, unsigned count) {
    for (uint32_t root = 0; root < ROOTS; root++) {
        uint32_t wanted = root < count ? TO : FROM;
        if (squall_view_route(view, squall_rank(root, 7)) != wanted) {
            return false;
        }
    }
    return true;
}

/* Reads until all loads were seen. Answers a null pointer where each view was right. */
static void *read_on(void *unused) {
    squall_view *mine = view_room();
    unsigned known = 0;
    bool right = true;
    while (right && known < ROOTS) {
        unsigned count = learn(mine);
        right = count >= known && is_of_one_moment(mine, count);
        known = count;
        squall_view_close(mine);
    }
    free(mine);
    (void)unused;
    return right ? NULL : &lock;
}

static squall_router *open_router(void) {
    const char *old = "{\"plan\":[{\"part\":1,\"from\":[0,0],\"to\":\"end\"}]}";
    const char *new = "{\"plan\":[{\"part\":2,\"from\":[0,0],\"to\":\"end\"}]}";
    squall_router *router = malloc(squall_router_size());
    if (router == NULL) {
        exit(2);
    }
    squall_router_open(1, (const uint8_t *)old, strlen(old), (const uint8_t *)new, strlen(new), router);
    return router;
}

int main(void) {
    squall_router *router = open_router();
    pthread_t readers[READERS];
    bool right = squall_router_status(router) == SQUALL_OK;
    publish(router, 0);
    for (int i = 0; i < READERS; i++) {
        if (pthread_create(&readers[i], NULL, read_on, NULL) != 0) {
            return 2;
        }
    }
    for (uint32_t root = 0; root < ROOTS; root++) {
        uint32_t status = squall_router_loaded(router, 1, 0, TO, squall_rank(root, 0), squall_rank(root + 1, 0));
        right = right && status == SQUALL_OK;
        publish(router, root + 1);
    }
    for (int i = 0; i < READERS; i++) {
        void *wrong;
        pthread_join(readers[i], &wrong);
        right = right && wrong == NULL;
    }
    squall_view_close(newest);
    free(newest);
    squall_router_close(router);
    free(router);
    puts(right ? "201 views, 8 readers" : "a view was wrong");
    return right ? 0 : 1;
}
