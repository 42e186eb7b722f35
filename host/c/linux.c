/* A program under a C library. */
#include <stdio.h>

int host_main(void (*line)(const char *));

static void line(const char *text) { puts(text); }

int main(void) { return host_main(line); }
