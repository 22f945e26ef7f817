// The heap of the page's module, in the place of the C library's: rattle_alloc, rattle_realloc and rattle_dealloc, as the kit's crate
// libc declares them. All memory is grown from the host, so what the page grows for itself is apart from it.
//
// A block of up to 128 bytes has a multiple of 16. A larger one has 5, 6, 7 or 8 times a power of two. A freed block is kept for the
// next one of its size.
typedef unsigned long bytes;

// What an attempt to get memory answers, as the module has it: two numbers of 64 bits.
struct tried {
    bytes ok;
    void *block;
};

// What is before each block. It keeps the block at a multiple of 16.
struct head {
    bytes size_class;
    struct head *next;
};

static const bytes PAGE = 65536;
// At least so much is grown at a time, and at most so much in all.
static const bytes GROWTH = 1 << 20;
static const bytes LIMIT = 4UL << 30;

static struct head *freed[160];
// The memory that was grown and is in no block.
static bytes start, end;

static bytes class_of(bytes size) {
    if (size <= 128)
        return size == 0 ? 0 : (size - 1) / 16;
    bytes power = 61 - __builtin_clzl(size - 1);
    return 8 + (power - 5) * 4 + ((size - 1) >> power & 3);
}

static bytes size_of(bytes size_class) {
    if (size_class < 8)
        return (size_class + 1) * 16;
    return (5 + size_class % 4) << (size_class / 4 + 3);
}

static struct head *grown(bytes size) {
    if (end - start < size) {
        bytes wanted = size < GROWTH ? GROWTH : (size + PAGE - 1) / PAGE * PAGE;
        bytes pages = __builtin_wasm_memory_size(0);
        if (wanted > LIMIT || pages * PAGE > LIMIT - wanted || __builtin_wasm_memory_grow(0, wanted / PAGE) == -1UL)
            return 0;
        if (pages * PAGE != end)
            start = pages * PAGE;
        end = pages * PAGE + wanted;
    }
    struct head *block = (struct head *)start;
    start += size;
    return block;
}

struct tried rattle_alloc(bytes size, bytes align) {
    if (size > LIMIT)
        return (struct tried){0, 0};
    bytes size_class = class_of(size);
    struct head *block = freed[size_class];
    if (block)
        freed[size_class] = block->next;
    else if (!(block = grown(sizeof *block + size_of(size_class))))
        return (struct tried){0, 0};
    block->size_class = size_class;
    return (struct tried){1, block + 1};
}

void rattle_dealloc(void *block) {
    struct head *head = (struct head *)block - 1;
    head->next = freed[head->size_class];
    freed[head->size_class] = head;
}

struct tried rattle_realloc(void *block, bytes kept, bytes size, bytes align) {
    if (size <= LIMIT && class_of(size) == ((struct head *)block - 1)->size_class)
        return (struct tried){1, block};
    struct tried to = rattle_alloc(size, align);
    if (to.ok) {
        __builtin_memcpy(to.block, block, kept < size ? kept : size);
        rattle_dealloc(block);
    }
    return to;
}
