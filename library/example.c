/* SPDX-FileCopyrightText: the Yorqanish authors
 * SPDX-License-Identifier: MIT
 *
 * The product of two Schur functions, printed: cc example.c $(pkg-config --cflags --libs yorqanish) */
#include <yorqanish.h>
#include <stdio.h>
#include <string.h>

int main(void)
{
    const char *line = "mult 2 1 - 2 1";
    uint8_t out[4096];
    size_t needed;
    uint8_t status = calc_run((const uint8_t *)line, strlen(line), (const uint8_t *)"", 0, out, sizeof out, &needed);
    if (needed <= sizeof out)
        fwrite(out, 1, needed, stdout);
    return status;
}
