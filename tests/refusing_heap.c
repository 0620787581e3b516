/* Preloaded before a Python that calls the C library. When it is told to, it refuses the library one of its requests for memory, and it
 * counts the library's blocks. What Python itself requests is granted. */
#define _GNU_SOURCE
#include <link.h>
#include <stddef.h>
#include <stdlib.h>
#include <string.h>

extern void *__libc_malloc(size_t);
extern void *__libc_realloc(void *, size_t);
extern void __libc_free(void *);

static const char *first, *last; /* where the library's code begins and ends */
static long left = -1;           /* so many requests are granted before one is refused; below 0 all are */
static long refused;

enum { MOST = 4096 };
static void *ours[MOST]; /* the library's blocks: a call of it may end in a jump to free, which then seems to be its caller's */
static long count;

static int find(struct dl_phdr_info *object, size_t size, void *name)
{
    (void)size;
    if (strstr(object->dlpi_name, name) == NULL)
        return 0;
    for (int i = 0; i < object->dlpi_phnum; i++)
        if (object->dlpi_phdr[i].p_type == PT_LOAD && object->dlpi_phdr[i].p_flags & PF_X) {
            first = (const char *)object->dlpi_addr + object->dlpi_phdr[i].p_vaddr;
            last = first + object->dlpi_phdr[i].p_memsz;
        }
    return 1;
}

/* Watches the loaded library whose path has this name in it. Returns 0 if there is none. */
int heap_watch(char *name)
{
    return dl_iterate_phdr(find, name);
}

/* Grants the library this many requests, and refuses the next. */
void heap_refuse(long requests)
{
    left = requests;
    refused = 0;
}

/* Grants all requests again, and returns how many were refused: 0 or 1. */
long heap_grant(void)
{
    left = -1;
    return refused;
}

long heap_blocks(void)
{
    return count;
}

static int is_library(const void *caller)
{
    return (const char *)caller >= first && (const char *)caller < last;
}

static int refuse(int is_ours)
{
    if (!is_ours || left < 0 || left-- > 0)
        return 0;
    refused++;
    return 1;
}

static void note(void *block)
{
    if (count == MOST)
        abort();
    ours[count++] = block;
}

/* Whether the block is the library's. It no longer is. */
static int forget(const void *block)
{
    for (long at = count - 1; at >= 0; at--)
        if (ours[at] == block) {
            ours[at] = ours[--count];
            return 1;
        }
    return 0;
}

void *malloc(size_t size)
{
    int is_ours = is_library(__builtin_return_address(0));
    void *block = refuse(is_ours) ? NULL : __libc_malloc(size);
    if (is_ours && block != NULL)
        note(block);
    return block;
}

void *realloc(void *old, size_t size)
{
    int is_ours = is_library(__builtin_return_address(0));
    void *block = refuse(is_ours) ? NULL : __libc_realloc(old, size);
    if (block != NULL && (is_ours || forget(old))) {
        forget(old);
        note(block);
    }
    return block;
}

void free(void *block)
{
    forget(block);
    __libc_free(block);
}
