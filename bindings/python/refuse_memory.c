/* Memory of which one request is refused, for test_memory.py: a shared object to be loaded before the C library's. */
#include <stdlib.h>

extern void *__libc_malloc(size_t n);
extern void *__libc_calloc(size_t count, size_t n);
extern void *__libc_realloc(void *at, size_t n);

/* How many requests are granted before the one that is refused, or less than 0 where all are. */
static volatile long granted = -1;

void refuse_memory_after(long count){
  granted = count;
}

static int is_refused(void){
  return granted >= 0 && granted-- == 0;
}

void *malloc(size_t n){
  return is_refused() ? NULL : __libc_malloc(n);
}

void *calloc(size_t count, size_t n){
  return is_refused() ? NULL : __libc_calloc(count, n);
}

void *realloc(void *at, size_t n){
  return is_refused() ? NULL : __libc_realloc(at, n);
}
