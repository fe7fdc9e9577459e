// The heap of the module: the three functions by which proved code asks for memory. Not proved; one thread.
//
// Blocks lie one behind the other, from where the memory ended at the first call. A block is a header of 16 bytes and its room. The header has the
// block's size, whose lowest bit says whether it is in use, and the size of the block before it, 0 for the first one. Free blocks are joined with
// free neighbours and wait in lists by the power of two of their size; the last block is never a free one.
#include "heap.h"

typedef struct Block {
  usize size;
  usize before;
  struct Block *next, *prev; // in a free block alone
} Block;

enum { HEADER = 16, USED = 1, LEAST = 16, WORTH_SPLITTING = 64, CLASSES = 41, TRIES = 8 };
static const usize most = 1ul << 40;

static usize begin, end, limit, last; // where the blocks begin and end, where the memory ends, the size of the last block
static Block *lists[CLASSES];

static usize class_of(usize size) { return 63 - (usize)__builtin_clzl(size); }
static usize size_of(const Block *b) { return b->size & ~(usize)USED; }
static int is_used(const Block *b) { return (b->size & USED) != 0; }
static Block *after(Block *b) { return (Block *)((char *)b + size_of(b)); }
static int is_last(Block *b) { return (usize)after(b) == end; }
static void *room_of(Block *b) { return (char *)b + HEADER; }
static Block *block_of(void *room) { return (Block *)((char *)room - HEADER); }
static usize size_for(usize bytes) { return (((bytes < LEAST ? LEAST : bytes) + 15) & ~(usize)15) + HEADER; }

// Makes the memory reach an address, by a sixteenth of the heap where that is more than what is asked for and is given. Returns 0 if refused.
static int reach(usize to) {
  if (to <= limit) return 1;
  usize more = (to - limit + MEMORY_PAGE - 1) / MEMORY_PAGE, step = (limit - begin) / MEMORY_PAGE / 16;
  if (more >= step || !memory_grows(step)) {
    if (!memory_grows(more)) return 0;
    step = more;
  }
  limit += step * MEMORY_PAGE;
  return 1;
}

static void unlink_free(Block *b) {
  if (b->prev) b->prev->next = b->next;
  else lists[class_of(b->size)] = b->next;
  if (b->next) b->next->prev = b->prev;
}

static void link_free(Block *b) {
  Block **list = &lists[class_of(b->size)];
  b->prev = 0;
  b->next = *list;
  if (*list) (*list)->prev = b;
  *list = b;
}

static void set_free(Block *b) {
  b->size &= ~(usize)USED;
  if (!is_last(b) && !is_used(after(b))) {
    Block *next = after(b);
    unlink_free(next);
    b->size += next->size;
  }
  if (b->before) {
    Block *prev = (Block *)((char *)b - b->before);
    if (!is_used(prev)) {
      unlink_free(prev);
      prev->size += b->size;
      b = prev;
    }
  }
  if (is_last(b)) {
    end = (usize)b;
    last = b->before;
    return;
  }
  after(b)->before = b->size;
  link_free(b);
}

// Sets free what a block in use has beyond a size, where that is worth it.
static void trim(Block *b, usize size) {
  usize had = size_of(b);
  if (had < size + WORTH_SPLITTING) return;
  Block *rest = (Block *)((char *)b + size);
  rest->size = (had - size) | USED;
  rest->before = size;
  b->size = size | USED;
  set_free(rest);
}

// A free block of a size or more. A few of its own list are looked at, which may all be too small.
static Block *find_free(usize size) {
  for (usize class = class_of(size); class < CLASSES; class++) {
    usize tries = TRIES;
    for (Block *b = lists[class]; b && tries; b = b->next, tries--)
      if (b->size >= size) return b;
  }
  return 0;
}

static void *take(usize bytes) {
  if (bytes > most) return 0;
  if (!limit) begin = end = limit = memory_pages() * MEMORY_PAGE;
  usize size = size_for(bytes);
  Block *b = find_free(size);
  if (b) {
    unlink_free(b);
    b->size |= USED;
    trim(b, size);
    return room_of(b);
  }
  if (!reach(end + size)) return 0;
  b = (Block *)end;
  b->size = size | USED;
  b->before = last;
  end += size;
  last = size;
  return room_of(b);
}

// Makes a block as large as a size in its place, if what lies behind it is free or is the end.
static void widen(Block *b, usize size) {
  if (!is_last(b) && !is_used(after(b)) && size_of(b) + after(b)->size >= size) {
    Block *next = after(b);
    unlink_free(next);
    b->size += next->size;
    after(b)->before = size_of(b);
  } else if (is_last(b) && reach((usize)b + size)) {
    end = (usize)b + size;
    last = size;
    b->size = size | USED;
  }
}

static Tried answer(void *room) { return room ? (Tried){1, (usize)room} : (Tried){0, HEADER}; }

Tried rattle_alloc(usize bytes, usize align) {
  (void)align; // at most 16
  return answer(take(bytes));
}

void rattle_dealloc(void *room) { set_free(block_of(room)); }

Tried rattle_realloc(void *room, usize kept, usize bytes, usize align) {
  (void)align;
  if (bytes > most) return answer(0);
  Block *b = block_of(room);
  usize size = size_for(bytes);
  if (size > size_of(b)) widen(b, size);
  if (size <= size_of(b)) {
    trim(b, size);
    return answer(room);
  }
  void *other = take(bytes);
  if (!other) return answer(0);
  __builtin_memcpy(other, room, kept < bytes ? kept : bytes);
  set_free(b);
  return answer(other);
}
