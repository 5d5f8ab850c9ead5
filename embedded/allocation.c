/* The three functions by which the embedded replica takes memory, over malloc, realloc and free. The kit's
   own go by names that are not of jcrdt, and are for x86-64 alone. No block has 0 bytes. */

typedef __SIZE_TYPE__ size;

/* Whether there was memory, and where: never null. */
typedef struct { size some; void *at; } answer;

void *malloc(size);
void *realloc(void *, size);
void free(void *);

answer jcrdt_alloc(size bytes, size align);
answer jcrdt_realloc(void *old, size was, size bytes, size align);
void jcrdt_dealloc(void *at);

static char nothing;

static answer answer_of(void *at) { return (answer){at != 0, at ? at : &nothing}; }

answer jcrdt_alloc(size bytes, size align) { return answer_of(malloc(bytes ? bytes : align)); }

answer jcrdt_realloc(void *old, size was, size bytes, size align) {
  (void)was;
  return answer_of(realloc(old, bytes ? bytes : align));
}

void jcrdt_dealloc(void *at) { free(at); }
