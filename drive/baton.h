/* Who runs: five standing places, four workers and the caller's thread, of which one runs. */
#ifndef BATON_H
#define BATON_H

enum { CALLER = 4, STANDS = 5 };

#if defined(__linux__) && !defined(NUXALDER_DRIVE_CONDITIONS)
#include <linux/futex.h>
#include <stdatomic.h>
#include <sys/syscall.h>
#include <unistd.h>

static struct {
    _Alignas(64) atomic_int go;
} stand[STANDS];

static void baton_init(void)
{
    for (int i = 0; i < STANDS; i++) atomic_store(&stand[i].go, 0);
}

static void baton_wake(int i)
{
    atomic_store(&stand[i].go, 1);
    syscall(SYS_futex, &stand[i].go, FUTEX_WAKE_PRIVATE, 1, NULL, NULL, 0);
}

static void baton_wait(int i)
{
    while (!atomic_load(&stand[i].go)) syscall(SYS_futex, &stand[i].go, FUTEX_WAIT_PRIVATE, 0, NULL, NULL, 0);
    atomic_store(&stand[i].go, 0);
}
#else
#include <pthread.h>

static struct {
    pthread_mutex_t lock;
    pthread_cond_t wake;
    int go;
} stand[STANDS];

static void baton_init(void)
{
    for (int i = 0; i < STANDS; i++) {
        pthread_mutex_init(&stand[i].lock, NULL);
        pthread_cond_init(&stand[i].wake, NULL);
        stand[i].go = 0;
    }
}

static void baton_wake(int i)
{
    pthread_mutex_lock(&stand[i].lock);
    stand[i].go = 1;
    pthread_cond_signal(&stand[i].wake);
    pthread_mutex_unlock(&stand[i].lock);
}

static void baton_wait(int i)
{
    pthread_mutex_lock(&stand[i].lock);
    while (!stand[i].go) pthread_cond_wait(&stand[i].wake, &stand[i].lock);
    stand[i].go = 0;
    pthread_mutex_unlock(&stand[i].lock);
}
#endif
#endif
