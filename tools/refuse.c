// Refuses one allocation of a program: preloaded, it counts what the program itself asks malloc, calloc and realloc for, and answers
// the one whose number REFUSE has, counted from 1, with nothing. What the C library asks for on its own is never refused. Where REFUSED
// names a file, that file is made once the allocation was met, so that who runs this knows when there is none with that number.
#define _GNU_SOURCE
#include <dlfcn.h>
#include <fcntl.h>
#include <link.h>
#include <stddef.h>
#include <stdint.h>
#include <stdlib.h>
#include <unistd.h>

extern void *__libc_malloc(size_t);
extern void *__libc_calloc(size_t, size_t);
extern void *__libc_realloc(void *, size_t);

static uintptr_t from, to;
static unsigned long wanted, met;

// The program is the first object that is loaded.
static int first_object(struct dl_phdr_info *object, size_t size, void *unused) {
    for (int i = 0; i < object->dlpi_phnum; i++) {
        const ElfW(Phdr) *part = &object->dlpi_phdr[i];
        if (part->p_type == PT_LOAD && part->p_flags & PF_X) {
            from = object->dlpi_addr + part->p_vaddr;
            to = from + part->p_memsz;
        }
    }
    return 1;
}

__attribute__((constructor)) static void begin(void) {
    const char *number = getenv("REFUSE");
    dl_iterate_phdr(first_object, NULL);
    wanted = number ? strtoul(number, NULL, 10) : 0;
}

static int refuses(void *caller) {
    uintptr_t place = (uintptr_t)caller;
    if (place < from || place >= to || ++met != wanted) return 0;
    const char *file = getenv("REFUSED");
    if (file) close(open(file, O_CREAT | O_WRONLY, 0600));
    return 1;
}

void *malloc(size_t size) { return refuses(__builtin_return_address(0)) ? NULL : __libc_malloc(size); }
void *calloc(size_t count, size_t size) { return refuses(__builtin_return_address(0)) ? NULL : __libc_calloc(count, size); }
void *realloc(void *old, size_t size) { return refuses(__builtin_return_address(0)) ? NULL : __libc_realloc(old, size); }
