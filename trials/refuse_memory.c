// Loaded before a program (LD_PRELOAD), it refuses memory: call number REFUSE of malloc and realloc, counted from 1, and where REFUSE_ALL is set each call behind it
// too. The file that COUNT names, of eight bytes, keeps how many calls there were, as an integer of the machine.
#include <errno.h>
#include <fcntl.h>
#include <stdatomic.h>
#include <stdlib.h>
#include <sys/mman.h>
#include <unistd.h>

extern void *__libc_malloc(size_t size);
extern void *__libc_realloc(void *old, size_t size);

static atomic_long own;
static atomic_long *calls = &own;
static long refused_call;
static int all;

__attribute__((constructor)) static void begin(void) {
  const char *number = getenv("REFUSE"), *name = getenv("COUNT");
  refused_call = number ? atol(number) : 0;
  all = getenv("REFUSE_ALL") != NULL;
  int file = name ? open(name, O_RDWR) : -1;
  if (file >= 0) {
    void *at = mmap(NULL, sizeof own, PROT_READ | PROT_WRITE, MAP_SHARED, file, 0);
    if (at != MAP_FAILED) calls = at;
    close(file);
  }
  atomic_store(calls, 0);
}

static int is_refused(void) {
  long call = atomic_fetch_add(calls, 1) + 1;
  if (refused_call == 0 || call < refused_call || (call > refused_call && !all)) return 0;
  errno = ENOMEM;
  return 1;
}

void *malloc(size_t size) { return is_refused() ? NULL : __libc_malloc(size); }

void *realloc(void *old, size_t size) { return is_refused() ? NULL : __libc_realloc(old, size); }
