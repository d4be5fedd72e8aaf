// What a process has on the disk: an fsync or fdatasync puts the file's inode and length into the file SYNC_NOTES, but
// not the one of the two that SYNC_FORGET names. What stood under a name before a rename stays as SYNC_OLD, until a
// folder is synced. Nothing else is done, since no kill loses what was written; and it takes a while, for more kills
// to find something that is not synced.
// tools/crash-runs preloads it. It includes nothing, so that the kit's compiler, which has no headers, builds it too.
typedef __SIZE_TYPE__ size_t;

extern void *dlsym(void *, const char *);
extern int faccessat(int, const char *, int, int);
extern int fstat(int, void *);
extern char *getenv(const char *);
extern int link(const char *, const char *);
extern int open(const char *, int, ...);
extern int strcmp(const char *, const char *);
extern int unlink(const char *);
extern int usleep(unsigned);
extern long write(int, const void *, size_t);
extern void _exit(int) __attribute__((noreturn));

// As Linux has them: of a file's status, in longs, where the inode and the length stand, and room for it.
enum { O_WRONLY = 1, O_APPEND = 1024, INODE = 1, LENGTH = 6, LONGS = 32 };
enum { MICROSECONDS = 500 };

static int notes;
static const char *old, *forgotten;

__attribute__((constructor)) static void begin(void) {
  const char *path = getenv("SYNC_NOTES");
  old = getenv("SYNC_OLD");
  forgotten = getenv("SYNC_FORGET");
  notes = path && old ? open(path, O_WRONLY | O_APPEND) : -1;
  if (notes < 0) _exit(125);
}

static int synced(const char *name, int file) {
  if (forgotten && !strcmp(name, forgotten)) return 0;
  usleep(MICROSECONDS);
  long status[LONGS];
  if (!faccessat(file, ".", 0, 0)) unlink(old);
  else if (fstat(file, status)) _exit(125);
  else if (write(notes, (long[]){status[INODE], status[LENGTH]}, 2 * sizeof(long)) < 0) _exit(125);
  return 0;
}

int fsync(int file) { return synced("fsync", file); }
int fdatasync(int file) { return synced("fdatasync", file); }

int rename(const char *from, const char *to) {
  link(to, old);
  return ((int (*)(const char *, const char *))dlsym((void *)-1, "rename"))(from, to);
}
