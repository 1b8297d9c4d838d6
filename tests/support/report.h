/*
 * What a test program prints: a line for each named check, and as its last line
 * 'N passed, M failed'. Reads as C89 and as C++.
 */
#ifndef SUPPORT_REPORT_H
#define SUPPORT_REPORT_H

#ifdef __cplusplus
extern "C" {
#endif

/* Counts one check and prints its line. Gives back whether it held. */
int report_check(const char *name, int holds);

/* Prints the last line; the program's exit status, 1 if a check failed or if
 * there was none. */
int report_end(void);

#ifdef __cplusplus
}
#endif

#endif
