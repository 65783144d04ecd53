/* The three functions by which the library has memory, over the memory of a WebAssembly module, and room for the page itself. Blocks are
 * powers of two from 32 bytes to 1 MiB, or multiples of 64 KiB; a free one is in the list of its size. None is given back to the browser. */
typedef unsigned long long u64;
typedef unsigned char u8;
typedef struct Allocation { u64 ok; void *place; } Allocation;
typedef struct Block { u64 size; struct Block *next; } Block;

#define LARGE ((u64)1 << 20)
#define PAGE ((u64)1 << 16)
#define HEAD 16

extern u8 __heap_base;
static Block *free_blocks[21], *free_large;
static u64 top;

/* A block behind all others. */
static Block *fresh(u64 whole) {
    if (!top) top = ((u64)&__heap_base + HEAD - 1) & ~(u64)(HEAD - 1);
    u64 end = top + whole, has = __builtin_wasm_memory_size(0) * PAGE;
    if (end > has && __builtin_wasm_memory_grow(0, (end - has + PAGE - 1) / PAGE) == (u64)-1) return 0;
    Block *block = (Block *)top;
    block->size = whole;
    top = end;
    return block;
}

/* The logarithm of the size of a block that has so many bytes in all. */
static int log_of(u64 whole) {
    int log = 5;
    while (((u64)1 << log) < whole) log++;
    return log;
}

void *page_alloc(u64 size) {
    if (size > (u64)1 << 40) return 0;
    u64 whole = size + HEAD;
    Block **from = &free_large;
    if (whole <= LARGE) {
        int log = log_of(whole);
        whole = (u64)1 << log;
        from = &free_blocks[log];
    } else {
        whole = (whole + PAGE - 1) & ~(PAGE - 1);
        while (*from && (*from)->size < whole) from = &(*from)->next;
    }
    Block *block = *from;
    if (block) *from = block->next;
    else if (!(block = fresh(whole))) return 0;
    return (u8 *)block + HEAD;
}

void page_free(void *place) {
    Block *block = (Block *)((u8 *)place - HEAD);
    Block **to = block->size > LARGE ? &free_large : &free_blocks[log_of(block->size)];
    block->next = *to;
    *to = block;
}

Allocation rattle_alloc(u64 size, u64 align) {
    (void)align;
    void *place = page_alloc(size);
    return (Allocation){place != 0, place};
}

void rattle_dealloc(void *place) { page_free(place); }

Allocation rattle_realloc(void *place, u64 kept, u64 size, u64 align) {
    (void)align;
    Block *block = (Block *)((u8 *)place - HEAD);
    if (size + HEAD <= block->size) return (Allocation){1, place};
    void *larger = page_alloc(size);
    if (!larger) return (Allocation){0, place};
    __builtin_memcpy(larger, place, kept);
    page_free(place);
    return (Allocation){1, larger};
}

/* The low 128 bits of a product, which LLVM calls for. */
typedef unsigned __int128 u128;
typedef union { u128 whole; struct { u64 low, high; }; } Halves;
u128 __multi3(u128 x, u128 y) {
    Halves a = {x}, b = {y}, product;
    u64 a0 = a.low & 0xffffffff, a1 = a.low >> 32, b0 = b.low & 0xffffffff, b1 = b.low >> 32;
    u64 first = a0 * b0, second = a1 * b0 + (first >> 32), third = a0 * b1 + (second & 0xffffffff);
    product.low = third << 32 | (first & 0xffffffff);
    product.high = a1 * b1 + (second >> 32) + (third >> 32) + a.low * b.high + a.high * b.low;
    return product.whole;
}
