#include "../../page/heap.h"
#pragma once

// The memory that a test lends to the heap: its addresses, how many pages were given, and how often more was asked for.
struct memory {
  char *base;
  usize size, most, pages, calls;
};
extern struct memory memory;

// Begins anew, with so many pages that may be given and none that is.
void new_memory(usize pages);
