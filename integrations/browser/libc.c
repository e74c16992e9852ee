/* The C library of the module: a heap that grows, blocks of bytes, numbers of 128 bits, and what Rattle's code takes memory by. */
#include <stdint.h>
#include <stdlib.h>
#include <string.h>

/* --- the heap ---
 *
 * A block has a power of two of bytes, from 32 on, with its header. A freed block waits in a list for the next of its size, and
 * is never split or joined. So the memory never shrinks: page.js opens another engine where it has grown large. */

typedef struct block {
    size_t size;        /* its bytes, with this header */
    struct block *next; /* the next free one of this size */
} block;

enum { SMALLEST = 5, LARGEST = 40, PAGE = 65536 };
_Static_assert(sizeof(block) == 16, "what follows a header is at a multiple of 16");

extern unsigned char __heap_base; /* of the linker */
static block *waiting[LARGEST + 1];
static uintptr_t top;

static int power_of(size_t size) {
    int power = SMALLEST;
    while (power <= LARGEST && ((size_t)1 << power) < size) power++;
    return power;
}

void *malloc(size_t size) {
    if (size > (size_t)1 << LARGEST) return NULL;
    int power = power_of(size + sizeof(block));
    if (power > LARGEST) return NULL;
    block *found = waiting[power];
    if (found) {
        waiting[power] = found->next;
        return found + 1;
    }
    if (!top) top = ((uintptr_t)&__heap_base + 15) & ~(uintptr_t)15;
    size_t whole = (size_t)1 << power, has = __builtin_wasm_memory_size(0) * PAGE;
    if (whole > has - top) {
        size_t pages = (whole - (has - top) + PAGE - 1) / PAGE;
        if (__builtin_wasm_memory_grow(0, pages) == (size_t)-1) return NULL;
    }
    found = (block *)top;
    top += whole;
    found->size = whole;
    return found + 1;
}

void free(void *at) {
    if (!at) return;
    block *freed = (block *)at - 1;
    int power = power_of(freed->size);
    freed->next = waiting[power];
    waiting[power] = freed;
}

void *calloc(size_t count, size_t size) {
    size_t whole;
    if (__builtin_mul_overflow(count, size, &whole)) return NULL;
    void *at = malloc(whole);
    return at ? memset(at, 0, whole) : NULL;
}

void *realloc(void *at, size_t size) {
    if (!at) return malloc(size);
    size_t has = ((block *)at - 1)->size - sizeof(block);
    if (size <= has) return at;
    void *moved = malloc(size);
    if (!moved) return NULL;
    memcpy(moved, at, has);
    free(at);
    return moved;
}

/* As the kit's libc_c has them for Linux. Each alignment divides 16, and a block of no bytes has an address too. */
typedef struct { uint64_t ok; void *at; } tried;

static tried tried_of(void *at) { return (tried){at != NULL, at ? at : (void *)16}; }
tried rattle_alloc(size_t size, size_t alignment) {
    (void)alignment;
    return tried_of(malloc(size));
}
tried rattle_realloc(void *at, size_t kept, size_t size, size_t alignment) {
    (void)kept, (void)alignment;
    return tried_of(realloc(at, size));
}
void rattle_dealloc(void *at) { free(at); }

/* --- bytes: one instruction of WebAssembly each --- */

void *memcpy(void *to, const void *from, size_t size) { return __builtin_memmove(to, from, size); }
void *memmove(void *to, const void *from, size_t size) { return __builtin_memmove(to, from, size); }
void *memset(void *to, int byte, size_t size) { return __builtin_memset(to, byte, size); }
size_t strlen(const char *text) {
    const char *end = text;
    while (*end) end++;
    return (size_t)(end - text);
}

/* --- numbers of 128 bits, by halves: what LLVM calls for a product and for a shift by a number that it doesn't know --- */

typedef unsigned __int128 u128;
typedef __int128 i128;
typedef union {
    u128 whole;
    struct { uint64_t low, high; } half;
} halves;

u128 __multi3(u128 one, u128 other) {
    halves a = {one}, b = {other}, product;
    const uint64_t mask = UINT32_MAX;
    uint64_t low = (a.half.low & mask) * (b.half.low & mask);
    uint64_t middle = (a.half.low >> 32) * (b.half.low & mask) + (low >> 32);
    uint64_t other_middle = (a.half.low & mask) * (b.half.low >> 32) + (middle & mask);
    product.half.low = other_middle << 32 | (low & mask);
    product.half.high = (a.half.low >> 32) * (b.half.low >> 32) + (middle >> 32) + (other_middle >> 32) +
                        a.half.low * b.half.high + a.half.high * b.half.low;
    return product.whole;
}

u128 __ashlti3(u128 value, int by) {
    halves a = {value}, shifted;
    if (!by) return value;
    if (by >= 64) {
        shifted.half.high = a.half.low << (by - 64);
        shifted.half.low = 0;
    } else {
        shifted.half.high = a.half.high << by | a.half.low >> (64 - by);
        shifted.half.low = a.half.low << by;
    }
    return shifted.whole;
}

u128 __lshrti3(u128 value, int by) {
    halves a = {value}, shifted;
    if (!by) return value;
    if (by >= 64) {
        shifted.half.low = a.half.high >> (by - 64);
        shifted.half.high = 0;
    } else {
        shifted.half.low = a.half.low >> by | a.half.high << (64 - by);
        shifted.half.high = a.half.high >> by;
    }
    return shifted.whole;
}

i128 __ashrti3(i128 value, int by) {
    halves a = {(u128)value}, shifted;
    int64_t high = (int64_t)a.half.high;
    if (!by) return value;
    if (by >= 64) {
        shifted.half.low = (uint64_t)(high >> (by - 64));
        shifted.half.high = (uint64_t)(high >> 63);
    } else {
        shifted.half.low = a.half.low >> by | a.half.high << (64 - by);
        shifted.half.high = (uint64_t)(high >> by);
    }
    return (i128)shifted.whole;
}
