/* Runs a function in a thread whose stack was painted before and ends at a page that may not be touched: a need above the size crashes the
 * program, and how far down the paint is gone tells the need. */
#ifndef PAINTED_H
#define PAINTED_H

#define _GNU_SOURCE
#include <pthread.h>
#include <stdint.h>
#include <stdio.h>
#include <stdlib.h>
#include <string.h>
#include <sys/mman.h>

enum { PAGE = 4096, SMALL = 64 * 1024, LARGE = 128 * 1024, PAINT = 0xC5 };

/* where the frame of the function that runs in the thread stands; it says so itself */
static uint8_t *caller;

/* How far below `caller` the stack was written. What the thread itself writes when it begins and ends counts too, so that the number is never
 * too small. */
static size_t painted(void *(*function)(void *), void *argument, size_t size) {
    uint8_t *low = mmap(NULL, size, PROT_READ | PROT_WRITE, MAP_PRIVATE | MAP_ANONYMOUS, -1, 0), *end = low;
    pthread_attr_t attributes;
    pthread_t thread;
    if (low == MAP_FAILED) {
        puts("stack: no memory");
        exit(1);
    }
    memset(low, PAINT, size);
    if (mprotect(low, PAGE, PROT_NONE) != 0 || pthread_attr_init(&attributes) != 0 || pthread_attr_setstack(&attributes, low, size) != 0
        || pthread_create(&thread, &attributes, function, argument) != 0 || pthread_join(thread, NULL) != 0) {
        puts("stack: no thread");
        exit(1);
    }
    pthread_attr_destroy(&attributes);
    mprotect(low, PAGE, PROT_READ | PROT_WRITE);
    while (*end == PAINT) {
        end++;
    }
    const size_t depth = end < caller ? (size_t)(caller - end) : 0;
    munmap(low, size);
    return depth;
}

#endif
