/* Where the library's memory comes from, unless the program that links libcfdp.a defines these three itself. */
#include <stdlib.h>

void *cfdp_malloc(size_t size);
void *cfdp_realloc(void *block, size_t size);
void cfdp_free(void *block);

void *cfdp_malloc(size_t size) { return malloc(size); }
void *cfdp_realloc(void *block, size_t size) { return realloc(block, size); }
void cfdp_free(void *block) { free(block); }
