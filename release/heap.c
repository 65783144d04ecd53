/* The three functions by which the library has memory, over malloc, realloc and free, as liblibc_c.a of the Rattle kit has them. They
 * include nothing, so a compiler without headers makes them for each target, and they are weak, so a program may have its own.
 *
 * `size` is in bytes, `align` a power of two up to 16: malloc and realloc align to it on the machines of a release. A size of 0 takes
 * `align` bytes, so a null pointer always says that there is no memory. */
typedef __SIZE_TYPE__ size_t;

void *malloc(size_t);
void *realloc(void *, size_t);
void free(void *);

/* A place, and whether there is one. */
struct allocation { _Bool ok; void *place; };

static char no_place;

static struct allocation allocation_of(void *place) {
    struct allocation made = { place != 0, place ? place : &no_place };
    return made;
}

__attribute__((weak)) struct allocation rattle_alloc(size_t size, size_t align) {
    return allocation_of(malloc(size ? size : align));
}

__attribute__((weak)) struct allocation rattle_realloc(void *place, size_t kept, size_t size, size_t align) {
    (void)kept;
    return allocation_of(realloc(place, size ? size : align));
}

__attribute__((weak)) void rattle_dealloc(void *place) { free(place); }
