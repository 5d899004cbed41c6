/* The heap of the WebAssembly module: what the compiled library asks for memory (rattle_alloc, rattle_realloc,
   rattle_dealloc), and allocate and release for the caller.

   A two-level segregated fit. Free blocks stand in lists by size, eight lists for each power of two, so that each call
   takes constant time. Free neighbours are always joined. The memory grows when no free block fits, and never shrinks:
   WebAssembly can't. There is one thread.

   A size of 0 counts as the alignment that is asked for. No alignment is greater than 16, that of every block. */
typedef unsigned long long usize;
typedef unsigned int u32;
typedef unsigned char u8;

/* `-DGROW=...` lets a test refuse a growth. */
#ifdef GROW
usize GROW(usize pages);
#else
#define GROW(pages) __builtin_wasm_memory_grow(0, pages)
#endif

#define HEADER 16ull     /* the two fields before the content of each block */
#define LEAST 16ull      /* the least content: the two links of a free block */
#define PAGE 65536ull
#define MOST_PAGES 65535ull /* 4 GiB less a page: every address, and the end, fits 32 bits */
#define FREE 1ull        /* the bit of `size` that says that a block is free */
#define LISTS 8          /* for each power of two */

typedef struct block {
    usize size;                    /* of the content, a multiple of 16; and the bit FREE */
    struct block *before;          /* the neighbour at the lower address; null for the first block */
    struct block *next, *previous; /* only of a free block: its list */
} block;

/* Whether there was memory, and where. */
typedef struct {
    usize ok, at;
} allocation;

/* Where a block stands in `lists`. */
typedef struct {
    int power, part;
} place;

static block *lists[64][LISTS];
static usize filled_powers;   /* a bit for each power with a list that isn't empty */
static u8 filled_parts[64];   /* for each power, a bit for each list that isn't empty */
static block *end;            /* the last block, without content and never free; null before the first growth */
static u8 nowhere[16];        /* where a refused allocation points to: no pointer of the library is null */

static usize size_of(const block *it) { return it->size & ~FREE; }

static _Bool is_free(const block *it) { return it->size & FREE; }

static void *content(block *it) { return (u8 *)it + HEADER; }

static block *block_of(void *content) { return (block *)((u8 *)content - HEADER); }

static block *after(block *it) { return (block *)((u8 *)it + HEADER + size_of(it)); }

/* The list for a size: its power of two, and which eighth above that. */
static place place_of(usize size) {
    int power = 63 - __builtin_clzll(size);
    place found = {power, (size >> (power - 3)) & (LISTS - 1)};
    return found;
}

static void insert(block *it) {
    place at = place_of(size_of(it));
    block **list = &lists[at.power][at.part];
    it->size |= FREE;
    it->previous = 0;
    it->next = *list;
    if (*list)
        (*list)->previous = it;
    *list = it;
    filled_parts[at.power] |= 1 << at.part;
    filled_powers |= 1ull << at.power;
}

static void remove(block *it) {
    place at = place_of(size_of(it));
    if (it->next)
        it->next->previous = it->previous;
    if (it->previous)
        it->previous->next = it->next;
    else
        lists[at.power][at.part] = it->next;
    if (!lists[at.power][at.part])
        filled_parts[at.power] &= ~(1 << at.part);
    if (!filled_parts[at.power])
        filled_powers &= ~(1ull << at.power);
    it->size &= ~FREE;
}

/* Makes a used block one with the free neighbour behind it. */
static void absorb(block *it, block *neighbour) {
    remove(neighbour);
    it->size += HEADER + size_of(neighbour);
    after(it)->before = it;
}

/* Makes a used block free, joined with its free neighbours. Returns the block that came of it. */
static block *give_back(block *it) {
    block *before = it->before;
    if (is_free(after(it)))
        absorb(it, after(it));
    if (before && is_free(before)) {
        remove(before);
        before->size += HEADER + size_of(it);
        it = before;
        after(it)->before = it;
    }
    insert(it);
    return it;
}

/* Frees what a used block has beyond a size. */
static void cut(block *it, usize size) {
    usize rest = size_of(it) - size;
    if (rest < HEADER + LEAST)
        return;
    it->size = size;
    block *behind = after(it);
    behind->size = rest - HEADER;
    behind->before = it;
    after(behind)->before = behind;
    give_back(behind);
}

/* Whether the memory has these pages more now. A refusal is -1 of 32 bits. */
static _Bool has_grown(usize pages) {
    return pages <= MOST_PAGES - __builtin_wasm_memory_size(0) && GROW(pages) < 0xffffffffull;
}

/* A free block of at least this size in new memory; null if there is none. Grows by an eighth at least, if it can. */
static block *grown(usize size) {
    usize before = __builtin_wasm_memory_size(0), begin = before * PAGE;
    /* The first growth has the header of the last block too. */
    usize needed = (size + (end ? 1 : 2) * HEADER + PAGE - 1) / PAGE, pages = before / 8 > needed ? before / 8 : needed;
    if (!has_grown(pages)) {
        pages = needed;
        if (!has_grown(pages))
            return 0;
    }
    block *it = end ? end : (block *)begin;
    if (!end)
        it->before = 0;
    it->size = begin + pages * PAGE - (usize)it - 2 * HEADER;
    end = after(it);
    end->size = 0;
    end->before = it;
    return give_back(it);
}

/* A free block of at least this size, of the lists all of whose blocks are so large; null if they are empty. */
static block *listed(usize size) {
    place at = place_of(size + (1ull << (60 - __builtin_clzll(size))) - 1);
    usize parts = filled_parts[at.power] & (~0ull << at.part);
    if (!parts) {
        usize powers = filled_powers & (~1ull << at.power);
        if (!powers)
            return 0;
        at.power = __builtin_ctzll(powers);
        parts = filled_parts[at.power];
    }
    return lists[at.power][__builtin_ctzll(parts)];
}

/* A size as blocks have it; 0 if it is greater than the memory can be. */
static usize rounded(usize size) {
    if (size > MOST_PAGES * PAGE)
        return 0;
    return size < LEAST ? LEAST : (size + 15) & ~15ull;
}

static void *taken(usize asked) {
    usize size = rounded(asked);
    block *it = size ? listed(size) : 0;
    if (size && !it)
        it = grown(size);
    if (!it)
        return 0;
    remove(it);
    cut(it, size);
    return content(it);
}

static void *resized(void *at, usize asked) {
    usize size = rounded(asked);
    block *it = block_of(at);
    if (!size)
        return 0;
    if (size > size_of(it) && is_free(after(it)) && size_of(it) + HEADER + size_of(after(it)) >= size)
        absorb(it, after(it));
    if (size <= size_of(it)) {
        cut(it, size);
        return at;
    }
    void *moved = taken(asked);
    if (moved) {
        __builtin_memcpy(moved, at, size_of(it));
        give_back(it);
    }
    return moved;
}

static allocation answer(void *at) {
    allocation made = {at != 0, (usize)(at ? at : nowhere)};
    return made;
}

allocation rattle_alloc(usize size, usize alignment) { return answer(taken(size ? size : alignment)); }

allocation rattle_realloc(void *at, usize kept, usize size, usize alignment) {
    (void)kept;
    return answer(resized(at, size ? size : alignment));
}

void rattle_dealloc(void *at) { give_back(block_of(at)); }

/* For the caller: 0 where there is no memory. */
u32 allocate(u32 size) { return (usize)taken(size); }

void release(u32 at) {
    if (at)
        give_back(block_of((void *)(usize)at));
}
