// Memory by malloc, as the kit's own object for x86-64 gives it: at least `align` bytes, and an address also where there is none.
typedef unsigned long size;

void *malloc(size);
void *realloc(void *, size);
void free(void *);

struct given {
    size is_ok;
    void *at;
};

static char nothing[16];

static struct given given(void *at) {
    return (struct given){at != 0, at ? at : nothing};
}

struct given rattle_alloc(size of, size align) {
    return given(malloc(of ? of : align));
}

struct given rattle_realloc(void *at, size old, size of, size align) {
    (void)old;
    return given(realloc(at, of ? of : align));
}

void rattle_dealloc(void *at) {
    free(at);
}
