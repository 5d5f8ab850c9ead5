/* The heap of jcrdt.wasm: malloc, realloc and free over memory.grow, and the functions that clang calls for
   copies.

   A block has a header of 8 bytes with its class, and begins at a multiple of 16. Classes are 16 bytes
   apart up to 1,024 bytes, and from there 8 to a doubling. A free block waits in the list of its class.
   Where there is none, a new block is cut from the gap: the free bytes at the memory's end, or a large
   free block. So what an array leaves that has moved serves for small blocks. Where neither is there and
   the memory may not grow, the answer is null. */

typedef unsigned long usize;

enum { PAGE = 65536, GRAIN = 16, HEADER = 8, SMALL = 1024, SMALL_CLASSES = SMALL / GRAIN + 1, CLASSES = SMALL_CLASSES + 8 * 30 };
enum { LARGE = SMALL_CLASSES + 8 * 4 }; /* the first class that is cut while the memory may grow: of more than 16,384 bytes */

extern unsigned char __heap_base;

static usize gap, end;       /* where the gap begins, a header's place, and where it ends */
static usize lists[CLASSES]; /* the first free block of each class; a free block holds the next one's address */
static usize refusal;        /* so many allocations from now one is refused; 0: none is */

void *memset(void *to, int byte, usize n) {
  unsigned char *at = to;
  while (n--) *at++ = (unsigned char)byte;
  return to;
}

void *memcpy(void *to, const void *from, usize n) {
  unsigned char *at = to;
  const unsigned char *of = from;
  while (n--) *at++ = *of++;
  return to;
}

void *memmove(void *to, const void *from, usize n) {
  unsigned char *at = to;
  const unsigned char *of = from;
  if (at < of) return memcpy(to, from, n);
  while (n--) at[n] = of[n];
  return to;
}

int memcmp(const void *one, const void *other, usize n) {
  const unsigned char *a = one, *b = other;
  for (; n; n--, a++, b++)
    if (*a != *b) return *a < *b ? -1 : 1;
  return 0;
}

/* The class of blocks with room for n bytes, or CLASSES where there is none. */
static usize class_of(usize n) {
  if (n > 1ul << 39) return CLASSES;
  usize whole = (n + HEADER + GRAIN - 1) / GRAIN * GRAIN;
  if (whole <= SMALL) return whole / GRAIN;
  usize above = whole - 1, doubling = 63 - (usize)__builtin_clzl(above);
  return SMALL_CLASSES + (doubling - 10) * 8 + ((above >> (doubling - 3)) & 7);
}

/* The bytes of a block of this class, its header included. */
static usize size_of(usize class) {
  if (class < SMALL_CLASSES) return class * GRAIN;
  usize step = class - SMALL_CLASSES, doubling = step / 8 + 10;
  return (8 + step % 8 + 1) << (doubling - 3);
}

static usize memory_end(void) { return __builtin_wasm_memory_size(0) * PAGE - HEADER; }

/* Lowered to a memory of 32 bits, a growth that fails answers -1 of 32 bits, which binaryen 108 makes 2^32 - 1. */
static int grows(usize pages) { return (int)__builtin_wasm_memory_grow(0, pages) != -1; }

static usize taken_from(usize class) {
  usize block = lists[class];
  if (block) lists[class] = *(usize *)block;
  return block;
}

static void give_to(usize class, usize block) {
  *(usize *)(block - HEADER) = class;
  *(usize *)block = lists[class];
  lists[class] = block;
}

/* Makes free blocks of what is left of the gap. */
static void leave_gap(void) {
  for (usize left; (left = end - gap) >= GRAIN; gap += left) {
    usize class = class_of(left - HEADER);
    while (size_of(class) > left) class--;
    left = size_of(class);
    give_to(class, gap + HEADER);
  }
}

/* Makes the gap of the least free block that has so many bytes, from this class on. */
static int gap_of_block(usize class) {
  for (; class < CLASSES; class++) {
    usize block = taken_from(class);
    if (!block) continue;
    leave_gap();
    gap = block - HEADER;
    end = gap + size_of(class);
    return 1;
  }
  return 0;
}

/* Makes the gap at the memory's end, with so many bytes. The memory grows by an eighth at least, where it may: each growth takes a while. */
static int gap_at_end(usize size) {
  usize behind = memory_end();
  int joins = end >= behind;
  usize lacks = joins ? size - (behind - gap) : size;
  usize needed = (lacks + PAGE - 1) / PAGE, ample = __builtin_wasm_memory_size(0) / 8 + 16;
  if (!(needed < ample && grows(ample)) && !grows(needed)) return 0;
  if (!joins) {
    leave_gap();
    gap = behind;
  }
  end = memory_end();
  return 1;
}

/* The first gap: what the memory has behind the module's own data. */
static void begin(void) {
  gap = ((usize)&__heap_base + GRAIN - 1) / GRAIN * GRAIN + HEADER;
  end = memory_end() < gap ? gap : memory_end();
}

static usize new_block(usize class) {
  usize size = size_of(class);
  if (!gap) begin();
  int has_room = end - gap >= size || gap_of_block(class < LARGE ? LARGE : class) || gap_at_end(size) || gap_of_block(class);
  if (!has_room) return 0;
  usize block = gap + HEADER;
  gap += size;
  *(usize *)(block - HEADER) = class;
  return block;
}

static int is_refused(void) { return refusal && --refusal == 0; }

/* For tests: the n-th allocation from now answers null; 0 for none. */
void heap_refuse(usize n) { refusal = n; }

void *malloc(usize n) {
  usize class = class_of(n);
  if (class == CLASSES || is_refused()) return 0;
  usize block = taken_from(class);
  return (void *)(block ? block : new_block(class));
}

void free(void *at) {
  if (at) give_to(*(usize *)((usize)at - HEADER), (usize)at);
}

void *realloc(void *at, usize n) {
  if (!at) return malloc(n);
  usize *header = (usize *)((usize)at - HEADER), old = *header, class = class_of(n);
  if (class == CLASSES || is_refused()) return 0;
  if (class == old) return at;
  usize more = size_of(class) - size_of(old);
  if (class > old && (usize)header + size_of(old) == gap && end - gap >= more) { /* it grows where it stands */
    gap += more;
    *header = class;
    return at;
  }
  usize left = refusal;
  refusal = 0;
  void *to = malloc(n);
  refusal = left;
  if (!to) return class < old ? at : 0;
  usize room = size_of(old < class ? old : class) - HEADER;
  __builtin_memcpy(to, at, room); /* memory.copy */
  free(at);
  return to;
}
