/* SPDX-FileCopyrightText: the Yorqanish authors
 * SPDX-License-Identifier: MIT
 *
 * What the program and the C library ask of a system for which the kit has no objects, in the place of the kit's own (release/machines says for
 * which). Nothing proves this file, as nothing proves a C library. It includes no header, so that the kit's compiler makes it for each system;
 * the names that begin with os_ are those that release/machines writes into the module.
 *
 * What it promises, which is what the contracts of the kit's libraries say of these functions:
 *
 *   rattle_alloc, rattle_realloc   a block of at least one byte, aligned to 16 bytes, with the contents that it had; or that there is none
 *   rattle_dealloc                 such a block is given back
 *   rattle_arg_count, rattle_arg   the words of the command, the program's name first. A word of Windows that is no text, since it has half a
 *                                  pair of surrogates, comes as one byte that is no UTF-8
 *   rattle_errno                   the error of the last call that failed, by the number that Linux gives to it
 *   os_read, os_write              at most `size` bytes of a stream; how many, or -1
 *   __x86_get_cpuid_feature_leaf   what the processor says of itself (of x86-64)
 *   os_signal                      what it was asked for; on Windows, which has no signal for an output that nobody reads, nothing */
typedef __SIZE_TYPE__ size_t;
typedef __PTRDIFF_TYPE__ ptrdiff_t;
typedef __INT64_TYPE__ int64_t;
typedef __UINT64_TYPE__ uint64_t;

void *malloc(size_t);
void *realloc(void *, size_t);
void free(void *);

/* An aggregate of two registers, in the call that the module makes for every system. */
struct tried {
    uint64_t is_there;
    void *at;
};

#ifdef _WIN32
#define TWO_REGISTERS __attribute__((sysv_abi))
#else
#define TWO_REGISTERS
#endif

#define ALIGNMENT 16
static char nothing[ALIGNMENT] __attribute__((aligned(ALIGNMENT)));

static struct tried tried(void *at)
{
    return (struct tried){at != 0, at ? at : nothing};
}

TWO_REGISTERS struct tried rattle_alloc(size_t size, size_t alignment)
{
    return tried(alignment > ALIGNMENT ? 0 : malloc(size ? size : 1));
}

TWO_REGISTERS struct tried rattle_realloc(void *at, size_t kept, size_t size, size_t alignment)
{
    (void)kept;
    return tried(alignment > ALIGNMENT ? 0 : realloc(at, size ? size : 1));
}

void rattle_dealloc(void *at)
{
    free(at);
}

#ifndef LIBRARY

static size_t count;
static char **words;
int os_main(int, char **);

size_t rattle_arg_count(void)
{
    return count;
}

/* The length of a word, or -1 if there is no such word, or -2 if it does not fit. */
ptrdiff_t rattle_arg(size_t which, char *to, size_t room)
{
    if (which >= count)
        return -1;
    size_t size = 0;
    for (; words[which][size]; size++)
        if (size < room)
            to[size] = words[which][size];
    return size <= room ? (ptrdiff_t)size : -2;
}

#if defined(__x86_64__) && !defined(__linux__)

/* What the processor says of itself, and what of it can be used, which is the same for what x86-64-v2 asks for: as glibc hands it out, whose
 * leaves 0 and 2 are those that the processor calls 1 and 80000001. */
struct feature {
    unsigned has[4], can_use[4];
};

const struct feature *__x86_get_cpuid_feature_leaf(unsigned leaf)
{
    static const struct feature none;
    static struct feature found[3];
    if (leaf != 0 && leaf != 2)
        return &none;
    struct feature *it = &found[leaf];
    unsigned a = leaf == 0 ? 1 : 0x80000001, b, c = 0, d;
    __asm__("cpuid" : "+a"(a), "=b"(b), "+c"(c), "=d"(d));
    it->has[0] = it->can_use[0] = a;
    it->has[1] = it->can_use[1] = b;
    it->has[2] = it->can_use[2] = c;
    it->has[3] = it->can_use[3] = d;
    return it;
}

#endif

#if defined(_WIN32)

int *_errno(void);
int _read(int, void *, unsigned), _write(int, const void *, unsigned), _setmode(int, int);
int64_t _lseeki64(int, int64_t, int);
char *strerror(int);
typedef __WCHAR_TYPE__ wide;
wide *GetCommandLineW(void);
wide **CommandLineToArgvW(const wide *, int *);
int WideCharToMultiByte(unsigned, unsigned, const wide *, int, char *, int, const char *, int *);
enum { UTF_8 = 65001, ONLY_TEXT = 128, BINARY = 0x8000 };

static int *errors(void)
{
    return _errno();
}

static unsigned at_most(size_t size)
{
    return size < 1u << 30 ? (unsigned)size : 1u << 30;
}

int64_t os_read(int stream, void *to, size_t size)
{
    return _read(stream, to, at_most(size));
}

int64_t os_write(int stream, const void *from, size_t size)
{
    return _write(stream, from, at_most(size));
}

int64_t os_lseek(int stream, int64_t by, int from)
{
    return _lseeki64(stream, by, from);
}

void *os_signal(int number, void *how)
{
    (void)number, (void)how;
    return 0;
}

/* A word as UTF-8; 0 if there is no memory for it. */
static char *text_of(const wide *word)
{
    int size = WideCharToMultiByte(UTF_8, ONLY_TEXT, word, -1, 0, 0, 0, 0);
    char *text = malloc(size ? (size_t)size : 2);
    if (text && size)
        WideCharToMultiByte(UTF_8, ONLY_TEXT, word, -1, text, size, 0, 0);
    else if (text)
        text[0] = (char)255, text[1] = 0;
    return text;
}

int main(void)
{
    enum { NO_MEMORY = 7 };
    int all;
    wide **given = CommandLineToArgvW(GetCommandLineW(), &all);
    words = given ? malloc((size_t)(all + 1) * sizeof *words) : 0;
    if (!words)
        return NO_MEMORY;
    for (; count < (size_t)all; count++)
        if (!(words[count] = text_of(given[count])))
            return NO_MEMORY;
    _setmode(0, BINARY);
    _setmode(1, BINARY);
    return os_main(all, words);
}

#else

ptrdiff_t read(int, void *, size_t), write(int, const void *, size_t);
int64_t lseek(int, int64_t, int);
void *signal(int, void *);
char *strerror(int);

#ifdef __APPLE__
int *__error(void);
static int *errors(void)
{
    return __error();
}
#else
int *__errno_location(void);
static int *errors(void)
{
    return __errno_location();
}
#endif

int64_t os_read(int stream, void *to, size_t size)
{
    return read(stream, to, size);
}

int64_t os_write(int stream, const void *from, size_t size)
{
    return write(stream, from, size);
}

int64_t os_lseek(int stream, int64_t by, int from)
{
    return lseek(stream, by, from);
}

void *os_signal(int number, void *how)
{
    return signal(number, how);
}

int main(int all, char **given)
{
    count = (size_t)all;
    words = given;
    return os_main(all, given);
}

#endif

int rattle_errno(void)
{
#ifdef __APPLE__
    enum { AGAIN = 35, AGAIN_OF_LINUX = 11 };
    if (*errors() == AGAIN)
        return AGAIN_OF_LINUX;
#endif
    return *errors();
}

void rattle_set_errno(int error)
{
    *errors() = error;
}

int os_strerror(int error, char *to, size_t room)
{
    const char *from = strerror(error);
    for (; room > 1 && *from; room--)
        *to++ = *from++;
    if (room)
        *to = 0;
    return 0;
}

#endif
