/* Stands in for QEMU's headers: the names that papr-table.c and papr-record.c use of them. */
#ifndef STAND_IN_OSDEP_H
#define STAND_IN_OSDEP_H

#define _GNU_SOURCE
#include <errno.h>
#include <inttypes.h>
#include <pthread.h>
#include <sched.h>
#include <stdarg.h>
#include <stdbool.h>
#include <stdint.h>
#include <stdio.h>
#include <stdlib.h>
#include <string.h>
#include <unistd.h>
#include <x86intrin.h>

#define H_REMOVE 0x04
#define H_RESIZE_HPT_PREPARE 0x36c
#define QEMU_ALIGNED(bytes) __attribute__((aligned(bytes)))
#define MAX(a, b) ((a) > (b) ? (a) : (b))
#define MIN(a, b) ((a) < (b) ? (a) : (b))

/* Little is buffered, so that what is written out may end within a record. */
#define setvbuf(file, buffer, mode, size) setvbuf(file, buffer, mode, (size) / 256)

#define g_autofree
#define g_free free
#define g_usleep usleep
#define g_assert_not_reached() abort()
#define g_build_filename(folder, name, end) g_strdup_printf("%s/%s", folder, name)

#define error_report(...) (fprintf(stderr, __VA_ARGS__), fputc('\n', stderr))
#define info_report error_report

#define QemuMutex pthread_mutex_t
#define qemu_mutex_init(mutex) pthread_mutex_init(mutex, NULL)
#define qemu_mutex_lock pthread_mutex_lock
#define qemu_mutex_unlock pthread_mutex_unlock
#define QemuSpin pthread_mutex_t
#define qemu_spin_lock pthread_mutex_lock
#define qemu_spin_unlock pthread_mutex_unlock

#define cpu_get_host_ticks() __rdtsc()
#define qatomic_xchg(place, value) __atomic_exchange_n(place, value, __ATOMIC_SEQ_CST)
#define qatomic_set(place, value) __atomic_store_n(place, value, __ATOMIC_RELAXED)
#define qatomic_add_fetch(place, value) __atomic_add_fetch(place, value, __ATOMIC_SEQ_CST)

static inline char *g_strdup_printf(const char *format, ...)
{
    char *text;
    va_list rest;
    va_start(rest, format);
    if (vasprintf(&text, format, rest) < 0)
        abort();
    va_end(rest);
    return text;
}

#endif
