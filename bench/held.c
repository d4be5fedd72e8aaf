// What a program of one thread holds on its heap, by malloc's own sizes, at each line that it prints: in the file HELD
// stand how many lines there were, and the bytes at each. bench/sets preloads it.
typedef __SIZE_TYPE__ size_t;

extern void *__libc_malloc(size_t);
extern void *__libc_calloc(size_t, size_t);
extern void *__libc_realloc(void *, size_t);
extern void *__libc_memalign(size_t, size_t);
extern void __libc_free(void *);
extern size_t malloc_usable_size(void *);
extern long __write(int, const void *, size_t);
extern char *getenv(const char *);
extern int open(const char *, int, ...);
extern int close(int);
extern void *mmap(void *, size_t, int, int, int, long);
extern void _exit(int) __attribute__((noreturn));

// As Linux has them.
enum { ENOMEM = 12, O_RDWR = 2, PROT_READ_AND_WRITE = 3, MAP_SHARED = 1, LINES = 63 };

static long held;
static struct { long lines, held[LINES]; } *told;

__attribute__((constructor)) static void begin(void) {
  const char *path = getenv("HELD");
  int file = path ? open(path, O_RDWR) : -1;
  void *shared = mmap(0, sizeof *told, PROT_READ_AND_WRITE, MAP_SHARED, file, 0);
  if (shared == (void *)-1) _exit(125);
  close(file);
  told = shared;
}

static void *taken(void *block) {
  held += malloc_usable_size(block);
  return block;
}

void *malloc(size_t size) { return taken(__libc_malloc(size)); }
void *calloc(size_t many, size_t size) { return taken(__libc_calloc(many, size)); }
void *memalign(size_t align, size_t size) { return taken(__libc_memalign(align, size)); }
void *aligned_alloc(size_t align, size_t size) { return memalign(align, size); }

void free(void *block) {
  held -= malloc_usable_size(block);
  __libc_free(block);
}

void *realloc(void *old, size_t size) {
  size_t before = malloc_usable_size(old);
  void *block = __libc_realloc(old, size);
  if (block || !size) held -= before;
  return block ? taken(block) : block;
}

int posix_memalign(void **found, size_t align, size_t size) {
  void *made = memalign(align, size);
  if (made) *found = made;
  return made ? 0 : ENOMEM;
}

long write(int file, const void *from, size_t many) {
  if (told && file == 1 && told->lines < LINES) told->held[told->lines++] = held;
  return __write(file, from, many);
}
