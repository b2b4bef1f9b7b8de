// The heap: what Rattle's library `libc` declares (rattle_alloc, rattle_realloc, rattle_dealloc), where the C library has none or a
// slow one. Nothing proves it; try_heap.c tries it.
//
// Source: Masmano, Ripoll, Crespo and Real, "TLSF: a new dynamic memory allocator for real-time systems", 2004: free blocks lie in lists
// by size, two bitmaps find the first that is large enough, and a freed block joins its free neighbours at once. Before it, as in
// glibc's malloc, stand short lists of small blocks that were just freed.
//
// Memory comes in one piece that grows at its end: a module's memory, or on Linux what brk gives. There a large block is a mapping of
// its own, which mremap grows without a copy. In a module's memory a large block that grows gets room behind it: what nobody has written
// takes none of the machine's memory, and a block that moves leaves a hole that the next larger one does not fit into.
#include "heap.h"

enum {
    WORD = 8,
    STEP = 16,          // addresses that the program gets are multiples of it
    LEAST = 24,         // bytes of a block at least: two links, and the word in which the next block finds this one while it is free
    LINEAR = 512,       // below, each step has its own list; above there are 16 to a doubling
    SMALL = LINEAR / STEP,
    ROWS = 16,
    CLASSES = SMALL + ROWS * 40,
    RECENT = 64,        // lists of blocks that were just freed: of up to 1,024 bytes
    KEPT = 32,          // blocks in each
    MOST_ROOMS = 16,
};

// A block: its size in bytes, a multiple of 16 and 8 more, with two flags in the low bits; the program's bytes follow. Where the block
// before it is free, the word before `head` is its address. A room is in no list; it is for the block before it, as long as that lives.
typedef struct block {
    u64 head;
    struct block *next, *previous; // while it is free
} block;

enum { FREE = 1, AFTER_FREE = 2, ROOM = 4, FLAGS = 7 };

typedef struct {
    block *first;
    u32 count;
} recent;

static block *lists[CLASSES];
static u64 filled[(CLASSES + 63) / 64];
static recent recents[RECENT];
static block *rooms[MOST_ROOMS];
static u8 *end;   // of the piece: a head with size 0 stands before it
static u8 nothing;

static u64 size_of(const block *b) { return b->head & ~(u64)FLAGS; }
static u8 *bytes_of(block *b) { return (u8 *)b + WORD; }
static block *block_of(u8 *p) { return (block *)(p - WORD); }
static block *after(block *b) { return (block *)(bytes_of(b) + size_of(b)); }
static block **before(block *b) { return (block **)b - 1; }

// The size of a block that has room for n bytes.
static u64 rounded(u64 n) { return n <= LEAST ? LEAST : ((n + WORD - 1) & ~(u64)(STEP - 1)) + WORD; }

// The list of the free blocks of this size.
static u32 class_of(u64 size) {
    if (size < LINEAR)
        return (u32)(size / STEP);
    u32 bit = 63 - (u32)__builtin_clzll(size);
    return SMALL + (bit - 9) * ROWS + (u32)(size >> (bit - 4)) - ROWS;
}

static void fill(block *b) {
    u32 k = class_of(size_of(b));
    b->previous = 0;
    b->next = lists[k];
    if (lists[k])
        lists[k]->previous = b;
    lists[k] = b;
    filled[k / 64] |= (u64)1 << k % 64;
    b->head |= FREE;
    after(b)->head |= AFTER_FREE;
    *before(after(b)) = b;
}

static void unfill(block *b) {
    u32 k = class_of(size_of(b));
    if (b->next)
        b->next->previous = b->previous;
    if (b->previous)
        b->previous->next = b->next;
    else if (!(lists[k] = b->next))
        filled[k / 64] &= ~((u64)1 << k % 64);
    b->head &= ~(u64)FREE;
    after(b)->head &= ~(u64)AFTER_FREE;
}

// A free block of this size or more, taken out of its list. Every block of the lists above the size's own is large enough; of its own
// only the first is looked at.
static block *find(u64 size) {
    u32 k = class_of(size);
    if (lists[k] && size_of(lists[k]) >= size) {
        block *b = lists[k];
        unfill(b);
        return b;
    }
    k++;
    u32 at = k / 64;
    if (at >= sizeof filled / sizeof *filled)
        return 0;
    u64 bits = filled[at] & (~(u64)0 << k % 64);
    while (!bits) {
        if (++at >= sizeof filled / sizeof *filled)
            return 0;
        bits = filled[at];
    }
    block *b = lists[at * 64 + (u32)__builtin_ctzll(bits)];
    unfill(b);
    return b;
}

static void set_room(block *was, block *room) {
    for (u32 k = 0; k < MOST_ROOMS; k++)
        if (rooms[k] == was) {
            rooms[k] = room;
            return;
        }
}

static void join(block *b);

// Lets all have what is room.
static void give_up(block *room) {
    set_room(room, 0);
    room->head &= ~(u64)ROOM;
    join(room);
}

// Frees a block, joined with the free blocks on both sides of it.
static void join(block *b) {
    if (after(b)->head & ROOM)
        give_up(after(b));
    block *next = after(b);
    if (next->head & FREE) {
        unfill(next);
        b->head += WORD + size_of(next);
    }
    if (b->head & AFTER_FREE) {
        block *first = *before(b);
        unfill(first);
        first->head += WORD + size_of(b);
        b = first;
    }
    fill(b);
}

// Keeps this size of a block, and frees the rest where it makes one.
static void cut(block *b, u64 size) {
    u64 rest = size_of(b) - size;
    if (rest < WORD + LEAST)
        return;
    b->head -= rest;
    block *other = after(b);
    other->head = rest - WORD;
    join(other);
}

// Keeps this size of a block, and the rest as room behind it, where it makes a block and there are not too many rooms.
static void cut_to_room(block *b, u64 size) {
    u64 rest = size_of(b) - size;
    u32 k = 0;
    while (k < MOST_ROOMS && rooms[k])
        k++;
    if (k == MOST_ROOMS || rest < WORD + LEAST) {
        cut(b, size);
        return;
    }
    b->head -= rest;
    rooms[k] = after(b);
    rooms[k]->head = (rest - WORD) | ROOM;
}

// Joins all that was just freed.
static void settle(void) {
    for (u32 k = 0; k < RECENT; k++) {
        block *b = recents[k].first;
        recents[k] = (recent){0, 0};
        while (b) {
            block *next = b->next;
            join(b);
            b = next;
        }
    }
}

// Joins all that was just freed, and gives up all rooms.
static void settle_all(void) {
    settle();
    for (u32 k = 0; k < MOST_ROOMS; k++)
        if (rooms[k])
            give_up(rooms[k]);
}

// Lets the piece grow so that a free block of this size stands at its end.
static bool extend(u64 size) {
    if (!end) {
        u8 *start = heap_start();
        if (!start)
            return 0;
        end = start + WORD;
        ((block *)start)->head = 0;
    }
    block *last = (block *)(end - WORD);
    u64 there = last->head & AFTER_FREE ? WORD + size_of(*before(last)) : 0;
    u64 more = heap_grow(size + WORD - (there < size + WORD ? there : 0));
    if (!more)
        return 0;
    end += more;
    last->head = (last->head & AFTER_FREE) | (more - WORD);
    after(last)->head = 0;
    join(last);
    return 1;
}

static u8 *take(u64 n) {
    if (n > (u64)1 << 46)
        return 0;
    u64 size = rounded(n);
    if (size / STEP < RECENT) {
        recent *r = &recents[size / STEP];
        block *b = r->first;
        if (b) {
            r->first = b->next;
            r->count--;
            return bytes_of(b);
        }
    }
    if (is_large(size))
        return large_take(n);
    block *b = find(size);
    if (!b) {
        settle();
        b = find(size);
    }
    if (!b) {
        if (!extend(size))
            settle_all();
        b = find(size);
        if (!b)
            return 0;
    }
    cut(b, size);
    return bytes_of(b);
}

// A block for so many bytes, with room behind it where the memory can grow by that.
static u8 *take_with_room(u64 n) {
    u64 size = rounded(n);
    for (u64 whole = heap_room(); is_roomy(size) && whole > 2 * size; whole = whole / 2 & ~(u64)(STEP - 1))
        if (extend(whole)) {
            block *b = find(whole);
            if (!b)
                break;
            cut_to_room(b, size);
            return bytes_of(b);
        }
    return take(n);
}

static void give(u8 *p) {
    if (is_large_at(p)) {
        large_give(p);
        return;
    }
    block *b = block_of(p);
    u64 k = size_of(b) / STEP;
    if (k < RECENT && recents[k].count < KEPT) {
        b->next = recents[k].first;
        recents[k].first = b;
        recents[k].count++;
        return;
    }
    join(b);
}

// Lets a block have room for this size where it lies. The piece grows where the block is its last.
static bool stretch(block *b, u64 size) {
    block *next = after(b);
    if (next->head & ROOM) {
        if (size_of(b) + WORD + size_of(next) >= size) {
            set_room(next, 0);
            b->head += WORD + size_of(next);
            return 1;
        }
        give_up(next);
        next = after(b);
    }
    u64 there = size_of(b) + (next->head & FREE ? WORD + size_of(next) : 0);
    if (there < size) {
        block *last = next->head & FREE ? after(next) : next;
        if ((u8 *)last + WORD != end || !extend(size - size_of(b)))
            return 0;
        next = after(b);
    }
    if (size_of(b) < size) {
        unfill(next);
        b->head += WORD + size_of(next);
    }
    return 1;
}

typedef struct {
    u64 ok; // (all of the word counts)
    u8 *p;
} tried;

static tried answer(u8 *p) { return (tried){p != 0, p ? p : &nothing}; }

tried rattle_alloc(u64 n, u64 align) { return answer(take(n ? n : align)); }

tried rattle_realloc(u8 *p, u64 kept, u64 n, u64 align) {
    if (!n)
        n = align;
    if (n > (u64)1 << 46)
        return answer(0);
    u64 size = rounded(n);
    if (is_large_at(p)) {
        if (is_large(size))
            return answer(large_move(p, n));
    } else if (!is_large(size) && stretch(block_of(p), size)) {
        if (is_roomy(size))
            cut_to_room(block_of(p), size);
        else
            cut(block_of(p), size);
        return answer(p);
    }
    u8 *q = take_with_room(n);
    if (q) {
        __builtin_memcpy(q, p, kept < n ? kept : n);
        give(p);
    }
    return answer(q);
}

void rattle_dealloc(u8 *p) { give(p); }
