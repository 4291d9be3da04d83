/* Refuses a program's requests for memory: the one with the number in REFUSE, counted from 1, each from it on where two dots
   follow the number, or each where REFUSE is "always".
   At its end the program writes to the file that REFUSED names how many were refused. Loaded before the C library. */
#define _GNU_SOURCE
#include <dlfcn.h>
#include <errno.h>
#include <fcntl.h>
#include <stdio.h>
#include <stdlib.h>
#include <string.h>
#include <unistd.h>

static unsigned long asked, refused;

static int refuse(void) {
    static const char *which;
    if (!which && !(which = getenv("REFUSE"))) which = "0";
    asked += 1;
    char *behind;
    unsigned long number = strtoul(which, &behind, 10);
    int now = !strcmp(which, "always") || asked == number || (!strcmp(behind, "..") && asked > number);
    if (now) refused += 1, errno = ENOMEM;
    return now;
}

void *malloc(size_t size) {
    static void *(*real)(size_t);
    if (!real) real = (void *(*)(size_t))dlsym(RTLD_NEXT, "malloc");
    return refuse() ? NULL : real(size);
}

void *realloc(void *old, size_t size) {
    static void *(*real)(void *, size_t);
    if (!real) real = (void *(*)(void *, size_t))dlsym(RTLD_NEXT, "realloc");
    return refuse() ? NULL : real(old, size);
}

/* A program that is aborted writes nothing. */
__attribute__((destructor)) static void tell(void) {
    const char *file = getenv("REFUSED");
    int to = file ? open(file, O_WRONLY | O_CREAT | O_TRUNC, 0600) : -1;
    char text[32];
    if (to >= 0) {
        int length = snprintf(text, sizeof text, "%lu\n", refused);
        if (write(to, text, (size_t)length) != length) refused = 0;
        close(to);
    }
}
