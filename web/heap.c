// What a program has in the place of the C library where it runs as WebAssembly: memory, bytes in, bytes out, and a few names
// that its module asks for. The host supplies host_read and host_write. web/build compiles it, web/heap_test.c tries it.
typedef unsigned long size;
typedef unsigned char byte;
typedef unsigned __int128 wide;

#define FROM_HOST(name) __attribute__((import_module("env"), import_name(#name)))
FROM_HOST(host_read) long host_read(void *at, size most);
FROM_HOST(host_write) long host_write(int to, const void *at, size count);

long read(int from, void *at, size most) { return host_read(at, most); }
long write(int to, const void *at, size count) { return host_write(to, at, count); }
long __write(int to, const void *at, size count) { return host_write(to, at, count); }
// These are pipes: there is no place to go to.
long lseek(int file, long by, int from) { return -1; }
int rattle_errno(void) { return 29; } // ESPIPE
long __sysv_signal(int signal, long handler) { return 0; }
// A proved program first asks whether the processor has what it was built for: yes.
const void *__x86_get_cpuid_feature_leaf(unsigned leaf) {
    static const unsigned all[8] = {~0u, ~0u, ~0u, ~0u, ~0u, ~0u, ~0u, ~0u};
    return all;
}
int __xpg_strerror_r(int error, char *into, size room) {
    if (room) *into = 0;
    return 0;
}

// Bulk instructions of WebAssembly, not calls of these functions again.
void *memcpy(void *to, const void *from, size count) { return __builtin_memcpy(to, from, count); }
void *memmove(void *to, const void *from, size count) { return __builtin_memmove(to, from, count); }
void *memset(void *to, int with, size count) { return __builtin_memset(to, with, count); }

// A block has HEAD bytes before it, which say its whole size: a multiple of 16, up to 128 each, and above that four for each
// power of two. A freed block goes to the list of its size, and the next one of that size comes from there. Where a list is
// empty, a block is cut off the end of memory, which grows. Where it can't grow, the answer is that there is none.
enum { HEAD = 16, LISTS = 180, PAGE = 65536, LEAST_GROWTH = 16 * PAGE };
#define MOST ((size)1 << 46)

extern byte __heap_base;
static byte *free_blocks[LISTS], *next_free, *end_of_memory;

struct kind { int list; size bytes; };

// The list of the least size that holds so many bytes, of which there is at least one.
static struct kind kind_of(size bytes) {
    size last = bytes - 1;
    int shift = last < 128 ? 4 : 61 - __builtin_clzl(last);
    return (struct kind){(shift - 4) * 4 + (int)(last >> shift), ((last >> shift) + 1) << shift};
}

static size *size_of(byte *block) { return (size *)(block - HEAD); }
static byte **next_of(byte *block) { return (byte **)block; }

static int grow(size bytes) {
    size pages = ((bytes < LEAST_GROWTH ? LEAST_GROWTH : bytes) + PAGE - 1) / PAGE;
    if (__builtin_wasm_memory_grow(0, pages) == (size)-1) {
        pages = (bytes + PAGE - 1) / PAGE;
        if (__builtin_wasm_memory_grow(0, pages) == (size)-1) return 0;
    }
    end_of_memory += pages * PAGE;
    return 1;
}

static byte *cut(size bytes) {
    if (!next_free) {
        next_free = (byte *)(((size)&__heap_base + 15) & ~(size)15);
        end_of_memory = (byte *)(__builtin_wasm_memory_size(0) * PAGE);
    }
    size left = end_of_memory - next_free;
    if (left < bytes && !grow(bytes - left)) return 0;
    byte *block = next_free + HEAD;
    next_free += bytes;
    *size_of(block) = bytes;
    return block;
}

static byte *take(size bytes) {
    if (bytes > MOST) return 0;
    struct kind kind = kind_of(bytes + HEAD);
    byte *block = free_blocks[kind.list];
    if (!block) return cut(kind.bytes);
    free_blocks[kind.list] = *next_of(block);
    return block;
}

struct answer { long found; void *at; };
static struct answer answered(void *at) { return (struct answer){at != 0, at}; }

struct answer rattle_alloc(size bytes, size align) { return answered(take(bytes ? bytes : align)); }

void rattle_dealloc(void *at) {
    struct kind kind = kind_of(*size_of(at));
    *next_of(at) = free_blocks[kind.list];
    free_blocks[kind.list] = at;
}

struct answer rattle_realloc(void *at, size kept, size bytes, size align) {
    size room = *size_of(at) - HEAD, most = bytes ? bytes : align;
    if (most <= room && room / 4 <= most) return answered(at);
    void *to = take(most);
    if (!to) return answered(most <= room ? at : 0);
    memcpy(to, at, kept < bytes ? kept : bytes);
    rattle_dealloc(at);
    return answered(to);
}

// What the compiler calls for numbers of 128 bits.
union halves { wide all; size half[2]; };

wide __ashlti3(wide a, int by) {
    union halves x = {a};
    if (by >= 64) x = (union halves){.half = {0, x.half[0] << (by - 64)}};
    else if (by) x = (union halves){.half = {x.half[0] << by, x.half[1] << by | x.half[0] >> (64 - by)}};
    return x.all;
}

wide __lshrti3(wide a, int by) {
    union halves x = {a};
    if (by >= 64) x = (union halves){.half = {x.half[1] >> (by - 64), 0}};
    else if (by) x = (union halves){.half = {x.half[0] >> by | x.half[1] << (64 - by), x.half[1] >> by}};
    return x.all;
}

wide __multi3(wide a, wide b) {
    union halves x = {a}, y = {b}, r;
    size low = 0xffffffff, p = x.half[0], q = y.half[0];
    size least = (p & low) * (q & low), middle = (p >> 32) * (q & low) + (least >> 32);
    size other = (p & low) * (q >> 32) + (middle & low);
    r.half[0] = other << 32 | (least & low);
    r.half[1] = (p >> 32) * (q >> 32) + (middle >> 32) + (other >> 32) + x.half[1] * q + p * y.half[1];
    return r.all;
}
