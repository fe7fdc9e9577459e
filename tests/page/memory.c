// The memory below page/heap.c natively: a range of addresses of which a beginning may be read and written.
#define _GNU_SOURCE
#include "memory.h"

#include <stdint.h>
#include <stdio.h>
#include <stdlib.h>
#include <sys/mman.h>

struct memory memory;

void new_memory(usize pages) {
  if (memory.base) munmap(memory.base, memory.most);
  memory = (struct memory){.most = (pages + 1) * MEMORY_PAGE};
  memory.base = mmap(0, memory.most, PROT_NONE, MAP_PRIVATE | MAP_ANONYMOUS | MAP_NORESERVE, -1, 0);
  if (memory.base == MAP_FAILED) perror("mmap"), exit(2);
  memory.size = MEMORY_PAGE - (uintptr_t)memory.base % MEMORY_PAGE; // nobody's, up to the first whole page
}

usize memory_pages(void) { return ((uintptr_t)memory.base + memory.size) / MEMORY_PAGE; }

int memory_grows(usize pages) {
  memory.calls++;
  if (pages > (memory.most - memory.size) / MEMORY_PAGE) return 0;
  if (pages && mprotect(memory.base + memory.size, pages * MEMORY_PAGE, PROT_READ | PROT_WRITE)) return 0;
  memory.size += pages * MEMORY_PAGE;
  memory.pages += pages;
  return 1;
}
