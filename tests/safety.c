/*
 * Every function of the header with odd input: nothing is read or written outside what is passed,
 * what is const or lent to a refused call stays as it was, and each call returns. The library is not
 * instrumented, so slices and cells stand at the edge of inaccessible pages, where a read or write
 * outside ends the program. And a million random calls, compared with the second implementation.
 */
#define _DEFAULT_SOURCE
#include "safety/mixed.h"
#include "safety/odd.h"

#include <unistd.h>

/* How many seconds it may take, so that a call that does not return ends it, too. */
#define LIMIT 300

int main(void)
{
    alarm(LIMIT);
    largest_values();
    every_length();
    null_pointers();
    any_storage();
    mixed_calls();
    return 0;
}
