/* Prints what it costs to start threads that do nothing, as tools/measure_many.py takes it: a line for 1, 2 and 3 threads, with the median
   microseconds until all were started, and until all were joined; and at last until as many that sleep were woken and have answered. Before
   each start the other processors had nothing to do for 0.3 ms.

   cc -O2 -pthread -o thread_start thread_start.c; thread_start [ROUNDS] */
#include <pthread.h>
#include <stdio.h>
#include <stdlib.h>
#include <time.h>

enum { MOST = 3, PAUSE = 300 };

static double now(void) {
    struct timespec it;
    clock_gettime(CLOCK_MONOTONIC, &it);
    return it.tv_sec * 1e6 + it.tv_nsec / 1e3;
}

static void *nothing(void *it) { return it; }

/* Threads that last sleep until a turn is called that isn't theirs yet, and answer. */
static pthread_mutex_t lock = PTHREAD_MUTEX_INITIALIZER;
static pthread_cond_t called = PTHREAD_COND_INITIALIZER, answered = PTHREAD_COND_INITIALIZER;
static long turn, answers;

static void *sleeper(void *it) {
    for (long mine = 0;;) {
        pthread_mutex_lock(&lock);
        while (turn == mine) pthread_cond_wait(&called, &lock);
        mine = turn;
        answers++;
        pthread_cond_signal(&answered);
        pthread_mutex_unlock(&lock);
        if (mine < 0) return it;
    }
}

static void call(long next, int several) {
    pthread_mutex_lock(&lock);
    answers = 0;
    turn = next;
    pthread_cond_broadcast(&called);
    while (answers < several) pthread_cond_wait(&answered, &lock);
    pthread_mutex_unlock(&lock);
}

static int order(const void *a, const void *b) {
    double x = *(const double *)a, y = *(const double *)b;
    return (x > y) - (x < y);
}

int main(int count, char **words) {
    int rounds = count > 1 ? atoi(words[1]) : 400;
    double *started = malloc(rounds * sizeof *started), *joined = malloc(rounds * sizeof *joined), *woken = malloc(rounds * sizeof *woken);
    if (rounds < 1 || !started || !joined || !woken) return 2;
    for (int several = 1; several <= MOST; several++) {
        for (int round = 0; round < rounds; round++) {
            pthread_t threads[MOST];
            for (double since = now(); now() < since + PAUSE;) {}
            double first = now();
            for (int i = 0; i < several; i++)
                if (pthread_create(&threads[i], 0, nothing, 0)) return 1;
            started[round] = now() - first;
            for (int i = 0; i < several; i++) pthread_join(threads[i], 0);
            joined[round] = now() - first;
        }
        pthread_t lasting[MOST];
        turn = 0;
        for (int i = 0; i < several; i++)
            if (pthread_create(&lasting[i], 0, sleeper, 0)) return 1;
        for (int round = 0; round < rounds; round++) {
            for (double since = now(); now() < since + PAUSE;) {}
            double first = now();
            call(round + 1, several);
            woken[round] = now() - first;
        }
        call(-1, several);
        for (int i = 0; i < several; i++) pthread_join(lasting[i], 0);
        qsort(started, rounds, sizeof *started, order);
        qsort(joined, rounds, sizeof *joined, order);
        qsort(woken, rounds, sizeof *woken, order);
        printf("%d %.1f %.1f %.1f\n", several, started[rounds / 2], joined[rounds / 2], woken[rounds / 2]);
    }
}
