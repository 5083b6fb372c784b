/* SPDX-FileCopyrightText: the Yorqanish authors
 * SPDX-License-Identifier: MIT
 *
 * Runs the code of a program of macOS on Linux, for tests/machines: its segments are put where they want to be, the places that TABLE names (lines
 * `ADDRESS SYMBOL`) are bound to what the C library of Linux has under that name, and its entry, at this offset, is called:
 * loader PROGRAM ENTRY TABLE WORDS.. */
#define _GNU_SOURCE
#include <errno.h>
#include <fcntl.h>
#include <signal.h>
#include <stdint.h>
#include <stdio.h>
#include <stdlib.h>
#include <string.h>
#include <sys/mman.h>
#include <unistd.h>

typedef __int128 wide;
typedef unsigned __int128 natural;
extern wide __divti3(wide, wide), __modti3(wide, wide);
extern natural __udivti3(natural, natural), __umodti3(natural, natural);

enum { SEGMENT = 0x19, FAILED = 99 };

static void zero(void *at, size_t size)
{
    memset(at, 0, size);
}

static void pattern16(void *at, const void *from, size_t size)
{
    for (char *to = at; size > 0; to += 16, size -= size < 16 ? size : 16)
        memcpy(to, from, size < 16 ? size : 16);
}

static int *error(void)
{
    return &errno;
}

static void stop(const char *why, const char *name)
{
    fprintf(stderr, "loader: %s %s\n", why, name);
    _exit(FAILED);
}

static void unbound(void)
{
    stop("a symbol that was to be bound later", "");
}

static const struct {
    const char *name;
    void *at;
} KNOWN[] = {
    {"_memcpy", memcpy}, {"_memmove", memmove}, {"_memset", memset}, {"_bzero", zero}, {"___bzero", zero}, {"_memset_pattern16", pattern16},
    {"___divti3", __divti3}, {"___modti3", __modti3}, {"___udivti3", __udivti3}, {"___umodti3", __umodti3}, {"_malloc", malloc},
    {"_realloc", realloc}, {"_free", free}, {"_read", read}, {"_write", write}, {"_lseek", lseek}, {"_signal", signal}, {"_strerror", strerror},
    {"___error", error}, {"dyld_stub_binder", unbound},
};

static void *known(const char *name)
{
    for (size_t it = 0; it < sizeof KNOWN / sizeof *KNOWN; it++)
        if (!strcmp(KNOWN[it].name, name))
            return KNOWN[it].at;
    stop("no symbol", name);
    return 0;
}

static void put_segments(const char *path)
{
    int file = open(path, O_RDONLY);
    static char head[1 << 16];
    if (file < 0 || read(file, head, sizeof head) < 32)
        stop("no program", path);
    uint32_t count = *(uint32_t *)(head + 16);
    for (char *at = head + 32; count-- > 0; at += *(uint32_t *)(at + 4)) {
        uint64_t *numbers = (uint64_t *)(at + 24);
        uint64_t place = numbers[0], size = numbers[1], from = numbers[2], kept = numbers[3];
        if (*(uint32_t *)at != SEGMENT || !kept)
            continue;
        if (mmap((void *)place, size, PROT_READ | PROT_WRITE | PROT_EXEC, MAP_PRIVATE | MAP_ANONYMOUS | MAP_FIXED_NOREPLACE, -1, 0) != (void *)place)
            stop("no room for a segment of", path);
        if (pread(file, (void *)place, kept, from) != (ssize_t)kept)
            stop("a segment is cut off:", path);
        __builtin___clear_cache((char *)place, (char *)place + size);
    }
    close(file);
}

int main(int count, char **words)
{
    if (count < 4)
        stop("usage: loader PROGRAM ENTRY TABLE WORDS..", "");
    put_segments(words[1]);
    FILE *table = fopen(words[3], "r");
    unsigned long place;
    char name[64];
    while (table && fscanf(table, "%lx %63s", &place, name) == 2)
        *(void **)place = known(name);
    if (!table || fclose(table))
        stop("no table", words[3]);
    int (*entry)(int, char **) = (int (*)(int, char **))(0x100000000ul + strtoul(words[2], 0, 0));
    words[3] = words[1];
    exit(entry(count - 3, words + 3));
}
