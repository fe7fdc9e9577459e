// Tests page/heap.c natively, over a memory of which nothing behind what was given can be read. While the heap works, the rooms in use are poisoned where
// AddressSanitizer is there: it may not touch them. A line 'ok NAME' or 'FAILED NAME: ..' a test.
#include "../../page/heap.c"

#include "memory.h"

#include <stdio.h>
#include <string.h>

#ifdef __has_feature
#if __has_feature(address_sanitizer)
#define __SANITIZE_ADDRESS__ 1
#endif
#endif
#ifdef __SANITIZE_ADDRESS__
#include <sanitizer/asan_interface.h>
#else
#define ASAN_POISON_MEMORY_REGION(at, size) ((void)(at), (void)(size))
#define ASAN_UNPOISON_MEMORY_REGION(at, size) ((void)(at), (void)(size))
#endif

enum { MOST_ROOMS = 256 };
static struct { unsigned char *at; usize size; unsigned char mark; } rooms[MOST_ROOMS];
static const char *fault;
static unsigned next_mark = 1;

static void expect(int holds, const char *words) { if (!holds && !fault) fault = words; }

static void poison(int but) {
  for (int k = 0; k < MOST_ROOMS; k++)
    if (rooms[k].at && k != but) ASAN_POISON_MEMORY_REGION(rooms[k].at, rooms[k].size);
}

static void unpoison(void) {
  for (int k = 0; k < MOST_ROOMS; k++)
    if (rooms[k].at) ASAN_UNPOISON_MEMORY_REGION(rooms[k].at, rooms[k].size);
}

static void fill(int k) { rooms[k].mark = next_mark++ % 255 + 1, memset(rooms[k].at, rooms[k].mark, rooms[k].size); }

static void expect_filled(int k, usize size) {
  for (usize i = 0; i < size; i++)
    if (rooms[k].at[i] != rooms[k].mark) { expect(0, "a room has other bytes than those that were put into it"); return; }
}

// What must hold of the blocks at all times, by one walk over them.
static void expect_blocks(void) {
  usize before = 0, free_blocks = 0, listed = 0;
  int was_free = 0;
  for (usize at = begin; at < end; at += size_of((Block *)at)) {
    Block *b = (Block *)at;
    expect(b->before == before, "a block has another size for the one before it");
    expect(size_of(b) >= HEADER + LEAST && size_of(b) % 16 == 0, "a block has a size that is none");
    expect(!(was_free && !is_used(b)), "two neighbours are free");
    was_free = !is_used(b), free_blocks += was_free, before = size_of(b);
    if (fault) return;
  }
  expect(last == before && !was_free, "the last block is another one, or free");
  expect(end <= limit, "the blocks end behind the memory");
  for (int k = 0; k < CLASSES; k++)
    for (Block *b = lists[k]; b; b = b->next) listed++, expect(!is_used(b) && class_of(b->size) == (usize)k, "a block is in a wrong list");
  expect(listed == free_blocks, "a free block is in no list");
}

static int get(int k, usize size) {
  poison(-1);
  Tried tried = rattle_alloc(size, 16);
  unpoison();
  expect_blocks();
  if (!tried.ok) return expect(tried.at == HEADER, "a refusal has another address"), 0;
  rooms[k].at = (unsigned char *)tried.at, rooms[k].size = size;
  expect(tried.at % 16 == 0, "a room is not aligned to 16");
  fill(k);
  return 1;
}

static void give_back(int k) {
  expect_filled(k, rooms[k].size);
  void *at = rooms[k].at;
  rooms[k].at = 0;
  poison(-1);
  rattle_dealloc(at);
  unpoison();
  expect_blocks();
}

static int resize(int k, usize size) {
  usize kept = rooms[k].size < size ? rooms[k].size : size;
  poison(k);
  Tried tried = rattle_realloc(rooms[k].at, rooms[k].size, size, 16);
  unpoison();
  expect_blocks();
  if (tried.ok) rooms[k].at = (unsigned char *)tried.at, rooms[k].size = size;
  expect_filled(k, tried.ok ? kept : rooms[k].size);
  if (tried.ok) fill(k);
  return (int)tried.ok;
}

static void begin_anew(usize pages) {
  new_memory(pages);
  begin = end = limit = last = 0;
  memset(lists, 0, sizeof lists);
  memset(rooms, 0, sizeof rooms);
}

static void alignment(void) {
  begin_anew(64);
  for (int k = 0; k < MOST_ROOMS; k++) expect(get(k, (usize)k * 7), "no room");
  for (int k = 0; k < MOST_ROOMS; k++) give_back(k);
  expect(end == begin, "blocks are left");
}

static void nothing_has_a_room(void) {
  begin_anew(64);
  expect(get(0, 0) && get(1, 0) && rooms[0].at != rooms[1].at, "two rooms of no bytes are one");
  expect(resize(0, 0), "a room of no bytes is not resized");
}

static void growth(void) {
  begin_anew(4096);
  expect(get(0, 16), "no room");
  expect(memory.pages == 1, "a small room takes more than a page");
  for (usize size = 1; size < 2000ul * MEMORY_PAGE; size += size / 8 + 1) expect(resize(0, size), "a room does not grow");
  expect(memory.pages < 2200, "the memory grew by more than a sixteenth too much");
  for (int k = 1; k < 100; k++) get(k, 10 * MEMORY_PAGE), give_back(k);
  expect(memory.calls < 200, "the memory was asked for more too often");
}

static void small_steps(void) {
  begin_anew(4096);
  for (int round = 0; round < 20000; round++) {
    Tried tried = rattle_alloc(8000, 8);
    expect(tried.ok && tried.at % 16 == 0, "no room");
  }
  expect_blocks();
  expect(memory.calls < 150, "the memory was asked for more too often");
}

static void reuse(void) {
  begin_anew(64);
  for (int round = 0; round < 300; round++) {
    for (int k = 0; k < 30; k++) get(k, 100 + 13 * (usize)k);
    for (int k = 0; k < 30; k++) give_back((k * 7 + round) % 30);
  }
  expect(memory.pages == 1, "rooms that were given back were not used again");
}

static void neighbours_are_joined(void) {
  static const int orders[][3] = {{0, 1, 2}, {0, 2, 1}, {1, 0, 2}, {1, 2, 0}, {2, 0, 1}, {2, 1, 0}};
  for (int order = 0; order < 6; order++) {
    begin_anew(64);
    for (int k = 0; k < 4; k++) get(k, 1000);
    usize first = (usize)rooms[0].at, before = end;
    for (int k = 0; k < 3; k++) give_back(orders[order][k]);
    expect(get(4, 3000) && (usize)rooms[4].at == first && end == before, "three free neighbours are not one block");
    give_back(4);
    expect(get(5, 500) && get(6, 2400) && (usize)rooms[5].at == first && end == before, "a part of a block is not used by itself");
  }
}

static void resizing(void) {
  begin_anew(64);
  get(0, 5000), get(1, 5000), get(2, 100);
  usize first = (usize)rooms[0].at;
  expect(resize(0, 500) && (usize)rooms[0].at == first, "a smaller room is in another place");
  expect(get(3, 4000) && (usize)rooms[3].at < (usize)rooms[1].at, "what a smaller room leaves is not used");
  give_back(1);
  expect(resize(3, 8000) && (usize)rooms[3].at < (usize)rooms[2].at, "a room does not grow into its free neighbour");
  expect(resize(2, 9000) && (usize)rooms[2].at > (usize)rooms[3].at, "the last room does not grow in its place");
  expect(resize(0, 20000) && (usize)rooms[0].at != first, "a room grew over its neighbour");
}

static void exhaustion(void) {
  begin_anew(16);
  int count = 0;
  while (count < MOST_ROOMS && get(count, 60000)) count++;
  expect(count == 17 && memory.pages == 16, "another number of rooms than there is memory for");
  expect(!get(MOST_ROOMS - 1, 60000) && !resize(0, 70000), "a room where no memory is left");
  expect(!resize(3, 1ul << 41) && !get(MOST_ROOMS - 1, ~0ul) && !get(MOST_ROOMS - 1, 1ul << 41), "a room larger than any memory");
  for (int k = 0; k < count; k++) expect_filled(k, 60000);
  give_back(5);
  expect(get(5, 60000), "a room that was given back is not used again");
  for (int k = 0; k < count; k++) give_back(k);
  expect(end == begin && get(0, 15 * MEMORY_PAGE), "what was given back is not one block");
}

static void at_random(void) {
  begin_anew(400);
  unsigned long seed = 20261127;
  for (int round = 0; round < 10000 && !fault; round++) {
    seed = seed * 6364136223846793005ul + 1442695040888963407ul;
    int k = (int)(seed >> 33) % MOST_ROOMS;
    usize size = (seed >> 20) % 8 ? (seed >> 40) % 700 : (seed >> 40) % 40000;
    if (!rooms[k].at) get(k, size);
    else if ((seed >> 60) % 3) give_back(k);
    else resize(k, size);
  }
  for (int k = 0; k < MOST_ROOMS; k++) if (rooms[k].at) give_back(k);
  expect(end == begin, "blocks are left");
}

int main(void) {
  static const struct { const char *name; void (*run)(void); } tests[] = {
      {"alignment", alignment}, {"nothing has a room", nothing_has_a_room}, {"growth", growth}, {"small steps", small_steps}, {"reuse", reuse},
      {"neighbours are joined", neighbours_are_joined}, {"resizing", resizing}, {"exhaustion", exhaustion}, {"at random", at_random}};
  int failed = 0;
  for (unsigned k = 0; k < sizeof tests / sizeof *tests; k++) {
    fault = 0;
    tests[k].run();
    if (fault) failed = 1, printf("FAILED %s: %s\n", tests[k].name, fault);
    else printf("ok %s\n", tests[k].name);
  }
  return failed;
}
