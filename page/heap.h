// What heap.c has of the memory below it, and gives to proved code.
#pragma once
typedef unsigned long usize;
typedef struct { usize ok, at; } Tried; // whether there is room, and where

Tried rattle_alloc(usize bytes, usize align);
Tried rattle_realloc(void *room, usize kept, usize bytes, usize align);
void rattle_dealloc(void *room);

enum { MEMORY_PAGE = 65536 };

#ifdef __wasm__
// A refusal is 2^32 - 1 where the memory has addresses of 32 bits, else 2^64 - 1.
static inline usize memory_pages(void) { return __builtin_wasm_memory_size(0); }
static inline int memory_grows(usize pages) { return (unsigned)__builtin_wasm_memory_grow(0, pages) != ~0u; }
#else
// Of a test: where its memory ends, in pages from address 0, and whether it gives more.
usize memory_pages(void);
int memory_grows(usize pages);
#endif
