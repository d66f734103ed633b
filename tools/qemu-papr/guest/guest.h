/* What the guests' programs share: each is /init of a kernel, and ends by switching the machine off. */
#ifndef GUEST_H
#define GUEST_H

#define _GNU_SOURCE
#include <errno.h>
#include <fcntl.h>
#include <pthread.h>
#include <sched.h>
#include <setjmp.h>
#include <signal.h>
#include <stdarg.h>
#include <stdint.h>
#include <stdio.h>
#include <stdlib.h>
#include <string.h>
#include <sys/mman.h>
#include <sys/mount.h>
#include <sys/reboot.h>
#include <sys/stat.h>
#include <sys/wait.h>
#include <time.h>
#include <unistd.h>

#define HPT_ORDER "/sys/kernel/debug/powerpc/hpt_order"

static inline void say(const char *format, ...)
{
    va_list rest;
    va_start(rest, format);
    vprintf(format, rest);
    va_end(rest);
    fflush(stdout);
}

static inline double now(void)
{
    struct timespec t;
    clock_gettime(CLOCK_MONOTONIC, &t);
    return t.tv_sec + t.tv_nsec / 1e9;
}

static inline void mount_all(void)
{
    mkdir("/proc", 0755);
    mkdir("/sys", 0755);
    mount("proc", "/proc", "proc", 0, 0);
    mount("sys", "/sys", "sysfs", 0, 0);
    mount("debugfs", "/sys/kernel/debug", "debugfs", 0, 0);
}

/* Memory of zeros, or the end. */
static inline void *map(size_t length, int kind)
{
    void *memory = mmap(0, length, PROT_READ | PROT_WRITE, kind | MAP_ANONYMOUS, -1, 0);
    if (memory == MAP_FAILED) {
        say("mmap: %s\n", strerror(errno));
        abort();
    }
    return memory;
}

/* The order of the table as the kernel has it, or 0. */
static inline int order_now(void)
{
    int order = 0;
    FILE *file = fopen(HPT_ORDER, "r");
    if (file && fscanf(file, "%d", &order) != 1)
        order = 0;
    if (file)
        fclose(file);
    return order;
}

/* Asks the kernel for a table of 2^order bytes: 0, or the error. */
static inline int resize_to(int order)
{
    char text[8];
    int length = snprintf(text, sizeof text, "%d", order);
    int file = open(HPT_ORDER, O_WRONLY);
    if (file < 0)
        return errno;
    int error = write(file, text, length) < 0 ? errno : 0;
    close(file);
    return error;
}

static inline void switch_off(void)
{
    sync();
    reboot(RB_POWER_OFF);
    for (;;)
        pause();
}

#endif
