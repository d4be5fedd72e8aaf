// What a program of one thread takes: in the file COUNT_COSTS stand its allocations, the bytes that it holds
// and the most that it held, by malloc's own sizes, and its reads of standard input. What the loader takes before the
// program begins is not counted. tools/calling/costs.py preloads it. It includes nothing, so that the kit's
// compiler, which has no headers, builds it too.
typedef __SIZE_TYPE__ size_t;

extern void *__libc_malloc(size_t);
extern void *__libc_calloc(size_t, size_t);
extern void *__libc_realloc(void *, size_t);
extern void *__libc_memalign(size_t, size_t);
extern void __libc_free(void *);
extern size_t malloc_usable_size(void *);
extern long __read(int, void *, size_t);
extern char *getenv(const char *);
extern int open(const char *, int, ...);
extern int close(int);
extern void *mmap(void *, size_t, int, int, int, long);
extern void _exit(int) __attribute__((noreturn));

// As Linux has them.
enum { ENOMEM = 12, O_RDWR = 2, PROT_READ_AND_WRITE = 3, MAP_SHARED = 1 };

static struct { long allocations, held, most, reads; } *costs;

__attribute__((constructor)) static void begin(void) {
  const char *path = getenv("COUNT_COSTS");
  int file = path ? open(path, O_RDWR) : -1;
  void *shared = mmap(0, sizeof *costs, PROT_READ_AND_WRITE, MAP_SHARED, file, 0);
  if (shared == (void *)-1) _exit(125);
  close(file);
  costs = shared;
}

static void *taken(void *block) {
  if (!costs) return block;
  costs->allocations += 1;
  costs->held += malloc_usable_size(block);
  if (costs->held > costs->most) costs->most = costs->held;
  return block;
}

static void given_back(void *block) {
  if (costs) costs->held -= malloc_usable_size(block);
}

void *malloc(size_t size) { return taken(__libc_malloc(size)); }
void *calloc(size_t many, size_t size) { return taken(__libc_calloc(many, size)); }
void *memalign(size_t align, size_t size) { return taken(__libc_memalign(align, size)); }
void *aligned_alloc(size_t align, size_t size) { return memalign(align, size); }

void free(void *block) {
  given_back(block);
  __libc_free(block);
}

void *realloc(void *old, size_t size) {
  given_back(old);
  return taken(__libc_realloc(old, size));
}

int posix_memalign(void **found, size_t align, size_t size) {
  void *made = memalign(align, size);
  if (made) *found = made;
  return made ? 0 : ENOMEM;
}

long read(int file, void *into, size_t most) {
  if (costs && file == 0) costs->reads += 1;
  return __read(file, into, most);
}
