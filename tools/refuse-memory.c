// Allocations that are refused: the one of the number REFUSE_AT, from 1, and with REFUSE_FROM in the
// environment each one behind it too. What the loader takes before the program begins is not counted. How
// many there were stands in the file REFUSE_COUNT, however the program ends. tools/refuse-memory preloads it.
// It includes nothing, so that the kit's compiler, which has no headers, builds it too.
typedef __SIZE_TYPE__ size_t;

extern void *__libc_malloc(size_t);
extern void *__libc_calloc(size_t, size_t);
extern void *__libc_realloc(void *, size_t);
extern void *__libc_memalign(size_t, size_t);
extern int *__errno_location(void);
extern char *getenv(const char *);
extern long strtol(const char *, char **, int);
extern int open(const char *, int, ...);
extern int close(int);
extern void *mmap(void *, size_t, int, int, int, long);
extern void _exit(int) __attribute__((noreturn));

// As Linux has them.
enum { ENOMEM = 12, O_RDWR = 2, PROT_READ_AND_WRITE = 3, MAP_SHARED = 1 };

static long *count, at;
static int goes_on;

__attribute__((constructor)) static void begin(void) {
  const char *number = getenv("REFUSE_AT"), *path = getenv("REFUSE_COUNT");
  int file = path ? open(path, O_RDWR) : -1;
  void *shared = mmap(0, sizeof *count, PROT_READ_AND_WRITE, MAP_SHARED, file, 0);
  if (shared == (void *)-1) _exit(125);
  close(file);
  goes_on = getenv("REFUSE_FROM") != 0;
  at = number ? strtol(number, 0, 10) : 0;
  count = shared;
}

static int is_refused(void) {
  if (!count) return 0;
  long number = __atomic_add_fetch(count, 1, __ATOMIC_SEQ_CST);
  if (!at || !(goes_on ? number >= at : number == at)) return 0;
  *__errno_location() = ENOMEM;
  return 1;
}

void *malloc(size_t size) { return is_refused() ? 0 : __libc_malloc(size); }
void *calloc(size_t many, size_t size) { return is_refused() ? 0 : __libc_calloc(many, size); }
void *realloc(void *old, size_t size) { return is_refused() ? 0 : __libc_realloc(old, size); }
void *memalign(size_t align, size_t size) { return is_refused() ? 0 : __libc_memalign(align, size); }
void *aligned_alloc(size_t align, size_t size) { return memalign(align, size); }

int posix_memalign(void **found, size_t align, size_t size) {
  void *made = memalign(align, size);
  if (made) *found = made;
  return made ? 0 : ENOMEM;
}
