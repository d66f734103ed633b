/*
 * The heap of the module, in place of a C library's. A block has 16 bytes in front of it and is, with them, a
 * power of two bytes long; of each power the free blocks are a list. What no block has yet been made of lies
 * behind `end`.
 *
 * The three functions `rattle_..` are those that the Rattle toolchain's heap calls. Blocks lie at multiples of 16,
 * and no type of papr wants more.
 */
typedef unsigned long size;

/* A block, or none: `ok` says which. */
typedef struct {
    _Bool ok;
    void *at;
} tried;

/* What stands in front of a block: the power, and the next free block of the same power. */
typedef struct head {
    size power;
    struct head *next;
} head;

#define PAGE 65536          /* bytes by which the memory grows */
#define MOST ((size)1 << 31) /* bytes that no block reaches */

extern unsigned char __heap_base;
static head *free_blocks[33];
static size end;

/*
 * Whether the memory has so many bytes, and more of it where it had fewer: at once some more than is asked for,
 * since growing is dear. What memory.grow answers isn't read: in a module made one of a 32-bit memory it is another
 * number.
 */
static _Bool has(size bytes) {
    size wanted = (bytes + PAGE - 1) / PAGE, there = __builtin_wasm_memory_size(0);
    if (wanted > there) {
        __builtin_wasm_memory_grow(0, wanted + there / 4 - there);
        if (__builtin_wasm_memory_size(0) < wanted)
            __builtin_wasm_memory_grow(0, wanted - there);
    }
    return __builtin_wasm_memory_size(0) >= wanted;
}

/* A block behind all others, or null. */
static head *fresh(size power) {
    if (end == 0)
        end = ((size)&__heap_base + 15) & ~(size)15;
    if (!has(end + ((size)1 << power)))
        return 0;
    head *block = (head *)end;
    end += (size)1 << power;
    return block;
}

/* The least power with room for so many bytes and what stands in front of them. */
static size power_of(size bytes) {
    size power = 5;
    while (((size)1 << power) < bytes + sizeof(head))
        power++;
    return power;
}

tried rattle_alloc(size bytes, size alignment) {
    (void)alignment;
    if (bytes >= MOST)
        return (tried){0, &end};
    size power = power_of(bytes);
    head *block = free_blocks[power];
    if (block)
        free_blocks[power] = block->next;
    else if (!(block = fresh(power)))
        return (tried){0, &end};
    block->power = power;
    return (tried){1, block + 1};
}

void rattle_dealloc(void *at) {
    head *block = (head *)at - 1;
    block->next = free_blocks[block->power];
    free_blocks[block->power] = block;
}

/* Whether a block that has no other behind it could be made longer where it lies: nothing has to be copied then. */
static _Bool lengthens(head *block, size bytes) {
    if ((size)block + ((size)1 << block->power) != end || bytes >= MOST)
        return 0;
    size power = power_of(bytes);
    if (!has((size)block + ((size)1 << power)))
        return 0;
    block->power = power;
    end = (size)block + ((size)1 << power);
    return 1;
}

tried rattle_realloc(void *at, size kept, size bytes, size alignment) {
    head *block = (head *)at - 1;
    if (bytes <= ((size)1 << block->power) - sizeof(head) || lengthens(block, bytes))
        return (tried){1, at};
    tried new = rattle_alloc(bytes, alignment);
    if (!new.ok)
        return (tried){0, at};
    __builtin_memcpy(new.at, at, kept);
    rattle_dealloc(at);
    return new;
}

/* Room for the page's own bytes, or null. It is exported by an attribute that the build puts here: one of C would
 * give the module a table of functions. */
void *page_room(size bytes) {
    tried new = rattle_alloc(bytes, 16);
    return new.ok ? new.at : 0;
}
