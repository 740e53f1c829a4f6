/* The heap of the library: the three functions by which it allocates. A host with an allocator of its
 * own links its own three in the place of this file.
 *
 * `align` is a power of two, at most 16. A block of no bytes is asked for as one of `align` bytes,
 * so that a null pointer means one thing: there is no memory.
 *
 * No header is included: the toolchain, whose compiler builds this file, has none. */
typedef __SIZE_TYPE__ size_t;

void *malloc(size_t size);
void *realloc(void *block, size_t size);
void free(void *block);

/* Whether there is memory, and where. Where there is none, `block` is not null, and not used. */
struct tried {
    _Bool ok;
    void *block;
};

static char nowhere[16];

static struct tried tried(void *block) {
    return (struct tried){block != 0, block != 0 ? block : nowhere};
}

/* A new block of `size` bytes. */
struct tried rattle_alloc(size_t size, size_t align) {
    return tried(malloc(size != 0 ? size : align));
}

/* The block with `size` bytes, whose first `kept` bytes stay as they are. It may move. Where there is
 * no memory, it stays as and where it is. */
struct tried rattle_realloc(void *block, size_t kept, size_t size, size_t align) {
    (void)kept;
    return tried(realloc(block, size != 0 ? size : align));
}

/* Frees the block. */
void rattle_dealloc(void *block) {
    free(block);
}
