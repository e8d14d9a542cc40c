/* Preloaded into the program: fails one call, the Nth of its kind. REFUSE is alloc, read or write, REFUSE_AT is N, and
   the file REFUSE_MARK is made when the call is refused.

   Where REFUSE is some, allocations fail by chance: one of REFUSE_AT, none where that is 0, by the seed REFUSE_SEED, from a line `begin`
   of what the program writes on until a line `ended`. With each line `all is at rest` the file REFUSE_MARK is written anew: how many
   failed so far, how many allocations there are, and how many bytes they have. */
#define _GNU_SOURCE
#include <dlfcn.h>
#include <errno.h>
#include <fcntl.h>
#include <malloc.h>
#include <stdint.h>
#include <stdio.h>
#include <stdlib.h>
#include <string.h>
#include <sys/syscall.h>
#include <unistd.h>

static long calls;

static int refuses(const char *kind) {
  const char *wanted = getenv("REFUSE"), *at = getenv("REFUSE_AT"), *mark = getenv("REFUSE_MARK");
  if (!wanted || !at || !mark || strcmp(wanted, kind) != 0 || __atomic_add_fetch(&calls, 1, __ATOMIC_SEQ_CST) != atol(at)) return 0;
  int file = open(mark, O_CREAT | O_WRONLY, 0600);
  if (file >= 0) close(file);
  return 1;
}

static uint64_t one_of, seed, asked, failed;
static int64_t alive, bytes_alive;
static int is_counting, is_on;

__attribute__((constructor)) static void read_chances(void) {
  const char *wanted = getenv("REFUSE"), *at = getenv("REFUSE_AT"), *from = getenv("REFUSE_SEED");
  if (!wanted || !at || strcmp(wanted, "some") != 0) return;
  seed = from ? strtoull(from, NULL, 10) : 0;
  one_of = strtoull(at, NULL, 10);
  is_counting = 1;
}

/* counts what there is: one allocation more, or one fewer */
static void count(void *found, int more) {
  if (!is_counting || !found) return;
  __atomic_add_fetch(&alive, more, __ATOMIC_RELAXED);
  __atomic_add_fetch(&bytes_alive, more * (int64_t)malloc_usable_size(found), __ATOMIC_RELAXED);
}

static void say_counts(void) {
  const char *mark = getenv("REFUSE_MARK");
  char text[96];
  int file = mark ? open(mark, O_CREAT | O_TRUNC | O_WRONLY, 0600) : -1;
  if (file < 0) return;
  int size = snprintf(text, sizeof text, "%llu %lld %lld\n", (unsigned long long)failed, (long long)alive, (long long)bytes_alive);
  if (syscall(SYS_write, file, text, size) != size) abort();
  close(file);
}

/* whether an allocation fails by chance: by its number and the seed, so that threads share nothing but the number */
static int fails_by_chance(void) {
  if (!one_of || !__atomic_load_n(&is_on, __ATOMIC_SEQ_CST)) return 0;
  uint64_t bits = seed + 0x9e3779b97f4a7c15u * __atomic_add_fetch(&asked, 1, __ATOMIC_SEQ_CST);
  bits = (bits ^ (bits >> 30)) * 0xbf58476d1ce4e5b9u;
  bits = (bits ^ (bits >> 27)) * 0x94d049bb133111ebu;
  if ((bits ^ (bits >> 31)) % one_of != 0) return 0;
  __atomic_add_fetch(&failed, 1, __ATOMIC_SEQ_CST);
  return 1;
}

static int refuses_room(void) { return is_counting ? fails_by_chance() : refuses("alloc"); }

void *malloc(size_t size) {
  static void *(*next)(size_t);
  if (!next) next = (void *(*)(size_t))dlsym(RTLD_NEXT, "malloc");
  void *found = refuses_room() ? NULL : next(size);
  count(found, 1);
  return found;
}

/* what the look for the next calloc itself asks for */
static char early[4096];
static size_t early_used;

/* only threads' own room is made so: it is counted, and never refused */
void *calloc(size_t number, size_t size) {
  static void *(*next)(size_t, size_t);
  static int is_looking;
  if (!next && is_looking) {
    size_t from = early_used;
    early_used += (number * size + 15) / 16 * 16;
    return early_used <= sizeof early ? early + from : NULL;
  }
  if (!next) {
    is_looking = 1;
    next = (void *(*)(size_t, size_t))dlsym(RTLD_NEXT, "calloc");
    is_looking = 0;
  }
  void *found = next(number, size);
  count(found, 1);
  return found;
}

void free(void *old) {
  static void (*next)(void *);
  if (!next) next = (void (*)(void *))dlsym(RTLD_NEXT, "free");
  if ((char *)old >= early && (char *)old < early + sizeof early) return;
  count(old, -1);
  next(old);
}

void *realloc(void *old, size_t size) {
  static void *(*next)(void *, size_t);
  if (!next) next = (void *(*)(void *, size_t))dlsym(RTLD_NEXT, "realloc");
  if (refuses_room()) return NULL;
  count(old, -1);
  void *found = next(old, size);
  count(found ? found : old, 1);
  return found;
}

ssize_t read(int file, void *bytes, size_t size) {
  static ssize_t (*next)(int, void *, size_t);
  if (!next) next = (ssize_t(*)(int, void *, size_t))dlsym(RTLD_NEXT, "read");
  if (!refuses("read")) return next(file, bytes, size);
  errno = EIO;
  return -1;
}

ssize_t write(int file, const void *bytes, size_t size) {
  static ssize_t (*next)(int, const void *, size_t);
  if (!next) next = (ssize_t(*)(int, const void *, size_t))dlsym(RTLD_NEXT, "write");
  if (is_counting && size >= 5 && memcmp(bytes, "begin", 5) == 0) __atomic_store_n(&is_on, 1, __ATOMIC_SEQ_CST);
  if (is_counting && size >= 5 && memcmp(bytes, "ended", 5) == 0) __atomic_store_n(&is_on, 0, __ATOMIC_SEQ_CST);
  if (is_counting && size >= 14 && memcmp(bytes, "all is at rest", 14) == 0) say_counts();
  if (!refuses("write")) return next(file, bytes, size);
  errno = EIO;
  return -1;
}
