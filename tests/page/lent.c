// Lends memory to page/heap.c before a program begins.
#include "memory.h"

__attribute__((constructor)) static void lend(void) { new_memory(16384); }
