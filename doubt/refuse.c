/* A library that is preloaded into a built program, and refuses one of its allocations.

   Rattle's code takes memory by `rattle_alloc` and `rattle_realloc` alone, which stand in the program (in one that
   `rt try` built, malloc does too, so it can't be replaced from outside). Where the two are, nm tells: REFUSE_SITES
   has their offsets, hexadecimal. A jump is written over each, so every call comes here. Of them the one of the
   number REFUSE_AT, from 1, is refused; 0 refuses none. The file REFUSE_LEFT is left with two numbers of eight bytes:
   how many calls there were, and how many bytes of standard input weren't read yet at the refusal. */
#define _GNU_SOURCE
#include <fcntl.h>
#include <link.h>
#include <stdatomic.h>
#include <stdint.h>
#include <stdlib.h>
#include <string.h>
#include <sys/ioctl.h>
#include <sys/mman.h>
#include <unistd.h>

struct tried {
    uint64_t ok;
    void *block;
};

struct left {
    _Atomic uint64_t calls;
    uint64_t unread;
};

static struct left *left;
static uint64_t refused_at;
static char nothing;

static int is_refused(void)
{
    int unread = 0;
    if (atomic_fetch_add(&left->calls, 1) + 1 != refused_at)
        return 0;
    ioctl(0, FIONREAD, &unread);
    left->unread = (uint64_t)unread;
    return 1;
}

static struct tried answer(void *block)
{
    struct tried tried = {block != NULL, block ? block : &nothing};
    return tried;
}

static struct tried take(size_t size, size_t align)
{
    return answer(is_refused() ? NULL : malloc(size ? size : align));
}

static struct tried resize(void *block, size_t kept, size_t size, size_t align)
{
    (void)kept;
    return answer(is_refused() ? NULL : realloc(block, size ? size : align));
}

/* Writes jmp *0(%rip), and behind it the address that it goes to. */
static void jump(char *from, void *to)
{
    char code[14] = {(char)0xff, 0x25, 0, 0, 0, 0};
    void *page = (void *)((uintptr_t)from & ~(uintptr_t)4095);
    memcpy(code + 6, &to, sizeof to);
    if (mprotect(page, 8192, PROT_READ | PROT_WRITE | PROT_EXEC))
        _exit(99);
    memcpy(from, code, sizeof code);
    if (mprotect(page, 8192, PROT_READ | PROT_EXEC))
        _exit(99);
}

static int first_object(struct dl_phdr_info *object, size_t size, void *base)
{
    (void)size;
    *(char **)base = (char *)object->dlpi_addr;
    return 1;
}

__attribute__((constructor)) static void begin(void)
{
    char *sites = getenv("REFUSE_SITES"), *at = getenv("REFUSE_AT"), *name = getenv("REFUSE_LEFT"), *base = NULL;
    int file = name ? open(name, O_RDWR) : -1;
    if (!sites || !at || file < 0)
        _exit(99);
    left = mmap(NULL, sizeof *left, PROT_READ | PROT_WRITE, MAP_SHARED, file, 0);
    if (left == MAP_FAILED)
        _exit(99);
    close(file);
    refused_at = strtoull(at, NULL, 10);
    dl_iterate_phdr(first_object, &base);
    jump(base + strtoull(sites, &sites, 16), (void *)take);
    jump(base + strtoull(sites + 1, NULL, 16), (void *)resize);
}
