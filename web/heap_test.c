// Tries heap.c natively: cc -g -fsanitize=address,undefined -o heap_test heap_test.c && ./heap_test
// Random blocks are taken, resized and freed in a memory that ends. Each is filled, and must have kept its bytes when it goes.
#include <stdio.h>
#include <stdlib.h>

// The memory: pages of an arena that begins at a whole page.
#define ARENA (160 * 65536ul)
static unsigned char *arena;
static unsigned long pages, most_pages;
static unsigned long grow_by(unsigned long by) {
    unsigned long old = (unsigned long)arena / 65536 + pages;
    if (by > most_pages - pages) return -1ul;
    pages += by;
    return old;
}
#define __builtin_wasm_memory_size(memory) ((unsigned long)arena / 65536 + pages)
#define __builtin_wasm_memory_grow(memory, by) grow_by(by)
#define __heap_base (*arena)
#define import_module(name) unused
#define import_name(name) unused
#define memcpy heap_memcpy
#define memmove heap_memmove
#define memset heap_memset
#define read heap_read
#define write heap_write
#define __write heap_write_again
#define lseek heap_lseek
#define __ashlti3 heap_ashlti3
#define __lshrti3 heap_lshrti3
#define __multi3 heap_multi3
#pragma GCC diagnostic ignored "-Wattributes"
#include "heap.c"
long host_read(void *at, size most) { return 0; }
long host_write(int to, const void *at, size count) { return count; }

#define CHECK(it) do { if (!(it)) { printf("line %d: %s\n", __LINE__, #it); exit(1); } } while (0)

static unsigned long state = 88172645463325252ul;
static unsigned long draw(unsigned long below) {
    state ^= state << 13; state ^= state >> 7; state ^= state << 17;
    return state % below;
}

struct block { byte *at; size bytes; byte with; };
enum { BLOCKS = 400 };
static struct block blocks[BLOCKS];
static long refused, taken;

static void fill(struct block *b, size from) { for (size i = from; i < b->bytes; i++) b->at[i] = b->with; }
static void has_kept(struct block *b, size count) { for (size i = 0; i < count; i++) CHECK(b->at[i] == b->with); }
static size some_bytes(void) { return draw(16) ? draw(300) : draw(1ul << draw(20)); }

static void lies_well(struct block *b) {
    CHECK(((size)b->at & 15) == 0);
    CHECK(b->at >= arena && b->at + b->bytes <= arena + pages * 65536);
}

static void step(struct block *b) {
    size bytes = some_bytes();
    if (!b->at) {
        struct answer a = rattle_alloc(bytes, 1ul << draw(5));
        CHECK(a.found == (a.at != 0));
        if (!a.found) { refused++; return; }
        *b = (struct block){a.at, bytes, (byte)draw(256)};
        taken++;
        lies_well(b);
        fill(b, 0);
    } else if (draw(3)) {
        has_kept(b, b->bytes);
        rattle_dealloc(b->at);
        b->at = 0;
    } else {
        size kept = b->bytes < bytes ? b->bytes : bytes;
        struct answer a = rattle_realloc(b->at, draw(2) ? b->bytes : kept, bytes, 8);
        if (!a.found) { refused++; has_kept(b, b->bytes); return; }
        b->at = a.at;
        has_kept(b, kept);
        b->bytes = bytes;
        lies_well(b);
        fill(b, kept);
    }
}

static void sizes_are_least(void) {
    int last = -1;
    size before = 0;
    for (size bytes = 1; bytes < 1ul << 16; bytes++) {
        struct kind k = kind_of(bytes);
        CHECK(k.bytes >= bytes && k.bytes % 16 == 0 && kind_of(k.bytes).list == k.list);
        CHECK(k.list == last ? k.bytes == before : (k.list == last + 1 && bytes == before + 1));
        last = k.list, before = k.bytes;
    }
    for (int power = 7; power < 47; power++) {
        CHECK(kind_of((1ul << power) + 1).bytes == (1ul << power) + (1ul << (power - 2)));
        CHECK(kind_of((1ul << power) + HEAD).list < LISTS);
    }
}

static void wide_numbers(void) {
    for (int i = 0; i < 100000; i++) {
        wide a = (wide)draw(-1ul) << 64 | draw(-1ul) >> draw(64), b = (wide)draw(-1ul) << 64 >> draw(128) | draw(-1ul);
        int by = (int)draw(128);
        CHECK(heap_ashlti3(a, by) == a << by);
        CHECK(heap_lshrti3(a, by) == a >> by);
        CHECK(heap_multi3(a, b) == a * b);
    }
}

int main(void) {
    arena = aligned_alloc(65536, ARENA);
    CHECK(arena);
    sizes_are_least();
    wide_numbers();
    CHECK(!rattle_alloc(-1ul, 1).found && !rattle_alloc(1ul << 62, 1).found);
    for (most_pages = 20; most_pages <= 160; most_pages += 35) {
        for (int i = 0; i < 40000; i++) step(&blocks[draw(BLOCKS)]);
        for (int i = 0; i < BLOCKS; i++) if (blocks[i].at) { has_kept(&blocks[i], blocks[i].bytes); }
    }
    byte over[64];
    for (int i = 0; i < 64; i++) over[i] = (byte)i;
    heap_memmove(over + 3, over, 40);
    CHECK(over[3] == 0 && over[42] == 39 && over[43] == 43);
    heap_memmove(over, over + 3, 40);
    CHECK(over[0] == 0 && over[39] == 39);
    CHECK(taken > 50000 && refused > 100);
    printf("well: %ld blocks, %ld answered that there is no memory, %lu pages\n", taken, refused, pages);
    free(arena);
}
