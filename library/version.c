/* SPDX-FileCopyrightText: the Yorqanish authors
 * SPDX-License-Identifier: MIT
 *
 * The version of the library that is loaded; library/build gives it, from the file VERSION. */
const char *yorqanish_version(void);

const char *yorqanish_version(void)
{
    return YORQANISH_VERSION;
}
