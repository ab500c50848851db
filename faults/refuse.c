/* Loaded before a program (LD_PRELOAD), it has calls of the C library fail, as these variables ask:
 *
 *   REFUSE_ALLOCATION=N  the Nth allocation is refused
 *   BETWEEN=1            only allocations after a `<` and before a `>` on the error output count
 *   REFUSE_READ=N        the Nth read fails
 *   REFUSE_WRITE=N       the Nth write fails, and later ones don't
 *   REFUSE_AFTER=N       writes take N bytes in all, and then fail
 *   REFUSE_EMPTY=N       writes take N bytes in all, and then none
 *   SHORT_AT=N           the Nth read or write moves one byte
 *   SHORT=1              each read and write moves one byte
 *   TOLD=D               a byte goes to descriptor D once a call was refused, or moved one byte by SHORT_AT
 *
 * Writes to the error output never fail. Calls are counted from 1, from the start of the program. It includes no file, so that any C
 * compiler for Linux compiles it.
 */
typedef unsigned long size_t;
typedef long ssize_t;
struct part {
  void *start;
  size_t length;
};

extern void *dlsym(void *, const char *);
extern char *getenv(const char *);
extern int *__errno_location(void);

static void *(*next_malloc)(size_t);
static void *(*next_realloc)(void *, size_t);
static ssize_t (*next_read)(int, void *, size_t);
static ssize_t (*next_write)(int, const void *, size_t);

enum { FAILED = 5, NO_MEMORY = 12, NO_SPACE = 28 };

static int counts, told, is_told, is_short, has_marks, is_marked;
static long allocation, failing_read, failing_write, room, empty_room, short_at;

static long number(const char *name) {
  const char *text = getenv(name);
  long value = 0;
  if (!text)
    return -1;
  while (*text >= '0' && *text <= '9')
    value = 10 * value + (*text++ - '0');
  return value;
}

static void find(void) {
  void *next = (void *)-1l;
  next_malloc = dlsym(next, "malloc");
  next_realloc = dlsym(next, "realloc");
  next_read = dlsym(next, "read");
  next_write = dlsym(next, "write");
}

__attribute__((constructor)) static void start(void) {
  find();
  allocation = number("REFUSE_ALLOCATION");
  failing_read = number("REFUSE_READ");
  failing_write = number("REFUSE_WRITE");
  room = number("REFUSE_AFTER");
  empty_room = number("REFUSE_EMPTY");
  short_at = number("SHORT_AT");
  is_short = number("SHORT") > 0;
  has_marks = number("BETWEEN") > 0;
  told = number("TOLD");
  counts = 1;
}

static void tell(void) {
  if (told >= 0 && !is_told)
    next_write(told, "!", 1);
  is_told = 1;
}

static int is_refused(void) {
  if (!counts || (has_marks && !is_marked) || allocation <= 0 || --allocation)
    return 0;
  tell();
  *__errno_location() = NO_MEMORY;
  return 1;
}

void *malloc(size_t size) {
  if (!next_malloc)
    find();
  return is_refused() ? 0 : next_malloc(size);
}

void *realloc(void *block, size_t size) {
  if (!next_realloc)
    find();
  return is_refused() ? 0 : next_realloc(block, size);
}

/* Returns how many bytes of a read or a write may move. */
static size_t cut(size_t size) {
  if (is_short && size > 1)
    size = 1;
  if (short_at > 0 && size > 1 && !--short_at) {
    tell();
    size = 1;
  }
  return size;
}

ssize_t read(int file, void *buffer, size_t size) {
  if (counts && failing_read > 0 && !--failing_read) {
    tell();
    *__errno_location() = FAILED;
    return -1;
  }
  return next_read(file, buffer, counts ? cut(size) : size);
}

/* Cuts the size to what is left; returns whether nothing is, and tells so. */
static int is_full(long *left, size_t *size) {
  if (*left < 0 || *size == 0)
    return 0;
  if (*left == 0) {
    tell();
    return 1;
  }
  if (*size > (size_t)*left)
    *size = *left;
  return 0;
}

/* A text to the error output may be a mark. */
static void look(const char *text, size_t size) {
  if (size && *text == '<')
    is_marked = 1;
  if (size && *text == '>')
    is_marked = 0;
}

ssize_t write(int file, const void *bytes, size_t size) {
  ssize_t taken;
  if (file == 2)
    look(bytes, size);
  if (!counts || file == 2)
    return next_write(file, bytes, size);
  if (failing_write > 0 && !--failing_write) {
    tell();
    *__errno_location() = FAILED;
    return -1;
  }
  size = cut(size);
  if (is_full(&room, &size)) {
    *__errno_location() = NO_SPACE;
    return -1;
  }
  if (is_full(&empty_room, &size))
    return 0;
  taken = next_write(file, bytes, size);
  if (taken > 0 && room > 0)
    room -= taken;
  if (taken > 0 && empty_room > 0)
    empty_room -= taken;
  return taken;
}

ssize_t writev(int file, const struct part *parts, int count) {
  ssize_t all = 0;
  for (int at = 0; at < count; at++) {
    ssize_t taken = write(file, parts[at].start, parts[at].length);
    if (taken < 0)
      return all ? all : taken;
    all += taken;
    if ((size_t)taken < parts[at].length)
      break;
  }
  return all;
}
