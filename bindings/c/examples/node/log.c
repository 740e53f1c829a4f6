/* A log on disk: records, each with its kind, length and checksum.
 *
 * A process that dies while it flushes may leave a torn tail, a record without its last bytes. The tail is cut off
 * when the log is opened. Nothing that follows from its call has left the process.
 *
 * Numbers are as the machine has them, since a log is read where it was written. */
#define _POSIX_C_SOURCE 200809L
#include "node.h"

#include <fcntl.h>
#include <signal.h>
#include <stddef.h>
#include <string.h>
#include <sys/file.h>
#include <sys/stat.h>
#include <unistd.h>

struct head {
    uint32_t kind;
    uint32_t len;
    uint32_t sum; /* of kind, length and bytes */
};

/* CRC-32, carried on over these bytes. */
static uint32_t crc(uint32_t sum, const void *bytes, size_t len) {
    for (size_t i = 0; i < len; i++) {
        sum ^= ((const uint8_t *)bytes)[i];
        for (int bit = 0; bit < 8; bit++) {
            sum = (sum >> 1) ^ ((sum & 1) != 0 ? UINT32_C(0xEDB88320) : 0);
        }
    }
    return sum;
}

static uint32_t sum_of(const struct head *head, const uint8_t *bytes) {
    return ~crc(crc(UINT32_MAX, head, offsetof(struct head, sum)), bytes, head->len);
}

/* Reads the record at a place, and answers where the next one begins. That is the same place if no whole record is
 * there. */
static off_t read_record(int file, off_t at, struct head *head, uint8_t *bytes) {
    if (pread(file, head, sizeof *head, at) != (ssize_t)sizeof *head || head->len > BYTES) {
        return at;
    }
    off_t start = at + (off_t)sizeof *head;
    if (pread(file, bytes, head->len, start) != (ssize_t)head->len || sum_of(head, bytes) != head->sum) {
        return at;
    }
    return start + (off_t)head->len;
}

size_t log_open(struct log *log, int folder, const char *name, log_taker *take, void *taker) {
    struct head head;
    struct stat info;
    uint8_t bytes[BYTES];
    off_t at = 0;
    *log = (struct log){.file = openat(folder, name, O_RDWR | O_CREAT | O_APPEND | O_CLOEXEC, 0666)};
    need(log->file >= 0, "to open a log");
    /* The lock goes with its process. While it is held, no second leader or partition runs over this log. */
    need(flock(log->file, LOCK_EX | LOCK_NB) == 0, "to lock a log: its node runs already");
    need(fsync(folder) == 0, "to keep the name of a log");
    for (off_t next; (next = read_record(log->file, at, &head, bytes)) != at; at = next) {
        take(taker, head.kind, bytes, head.len);
    }
    need(fstat(log->file, &info) == 0, "the length of a log");
    /* A torn tail is a part of one flush. More is damage, and to cut it off would lose calls that had effects. */
    need(info.st_size - at < BATCH, "a whole log");
    need(ftruncate(log->file, at) == 0 && fsync(log->file) == 0, "to cut off a torn tail");
    return (size_t)(info.st_size - at);
}

void log_add(struct log *log, uint32_t kind, const uint8_t *bytes, size_t len) {
    struct head head = {kind, (uint32_t)len, 0};
    need(len <= BYTES && sizeof head + len <= BATCH - log->used, "room for a record");
    head.sum = sum_of(&head, bytes);
    memcpy(log->batch + log->used, &head, sizeof head);
    memcpy(log->batch + log->used + sizeof head, bytes, len);
    log->used += sizeof head + len;
}

static void write_all(int file, const uint8_t *bytes, size_t len) {
    while (len != 0) {
        ssize_t done = write(file, bytes, len);
        need(done > 0, "to write a log");
        bytes += done;
        len -= (size_t)done;
    }
}

/* Dies within a flush. */
static void die(const struct log *log) {
    static const uint8_t zeros[BATCH];
    size_t cut = log->death.cut < log->used ? log->death.cut : log->used;
    write_all(log->file, log->batch, log->used - cut);
    write_all(log->file, zeros, log->death.zeros ? cut : 0);
    raise(SIGKILL);
}

/* If a flush fails, nobody knows what is on disk. The process ends, and begins anew with what it finds there. */
void log_flush(struct log *log) {
    if (log->used == 0) {
        return;
    }
    bool dies = log->death.flush != 0 && --log->death.flush == 0;
    if (dies && log->death.cut != 0) {
        die(log);
    }
    write_all(log->file, log->batch, log->used);
    need(fdatasync(log->file) == 0, "to flush a log");
    log->used = 0;
    if (dies) {
        raise(SIGKILL);
    }
}

void log_close(struct log *log) {
    need(close(log->file) == 0, "to close a log");
}
