/* For tests/machines: what only a program of Windows can do, `windows.exe load` or `windows.exe spawn PAGE LINE`.
 *
 * `load` calls the library yorqanish.dll, without having been linked with it, as library/example.c does. `spawn` starts a program by a line of
 * its own, with any UTF-16 in it, paired or not: LINE has four hexadecimal digits for each unit. The console has the code page PAGE then, for
 * input and output; without a console, or without that page, the status is 99. */
#include <windows.h>
#include <fcntl.h>
#include <io.h>
#include <stdio.h>
#include <stdlib.h>
#include <string.h>
#include <yorqanish.h>

enum { FAILED = 99, MOST = 4096 };

static int load(void)
{
    HMODULE library = LoadLibraryA("yorqanish.dll");
    if (!library)
        return FAILED;
    uint8_t (*run)(const uint8_t *, size_t, const uint8_t *, size_t, uint8_t *, size_t, size_t *) = (void *)GetProcAddress(library, "calc_run");
    const char *(*version)(void) = (void *)GetProcAddress(library, "yorqanish_version");
    const char *line = "mult 2 1 - 2 1";
    uint8_t out[MOST];
    size_t needed;
    if (!run || !version || strcmp(version(), YORQANISH_VERSION))
        return FAILED;
    int status = run((const uint8_t *)line, strlen(line), (const uint8_t *)"", 0, out, sizeof out, &needed);
    _setmode(1, _O_BINARY);
    fwrite(out, 1, needed, stdout);
    return status;
}

static int spawn(const char *page, const char *digits)
{
    static WCHAR line[MOST];
    STARTUPINFOW how = {.cb = sizeof how};
    PROCESS_INFORMATION started;
    DWORD status = FAILED;
    for (size_t it = 0; it < MOST - 1 && strlen(digits) >= 4 * it + 4; it++) {
        char unit[5] = {0};
        memcpy(unit, digits + 4 * it, 4);
        line[it] = (WCHAR)strtoul(unit, 0, 16);
    }
    if (atoi(page)) {
        AllocConsole();
        if (!SetConsoleCP(atoi(page)) || !SetConsoleOutputCP(atoi(page)))
            return FAILED;
    }
    if (!CreateProcessW(0, line, 0, 0, TRUE, 0, 0, 0, &how, &started))
        return FAILED;
    WaitForSingleObject(started.hProcess, INFINITE);
    GetExitCodeProcess(started.hProcess, &status);
    return status;
}

int main(int count, char **words)
{
    if (count == 2 && !strcmp(words[1], "load"))
        return load();
    return count == 4 && !strcmp(words[1], "spawn") ? spawn(words[2], words[3]) : FAILED;
}
