// Eight threads call at once, each with the stack that kilteshva.h speaks of.
#define _POSIX_C_SOURCE 200809L
#include "../kilteshva.h"
#include "captures.h"
#include "check.h"

#include <pthread.h>

enum { THREADS = 8, ROUNDS = 30000, STACK = 256 * 1024, BUDGET = 100 };

// What a call gives on a thread of its own, and whether it gave the same each time.
struct worker {
    pthread_t thread;
    struct capture capture;
    uint64_t budget;
    uint8_t answer[KILTESHVA_ANSWER];
    bool same;
};

static void *work(void *given) {
    struct worker *worker = given;
    for (int round = 0; round < ROUNDS; round++) {
        uint8_t answer[KILTESHVA_ANSWER];
        kilteshva_judge(worker->capture.bytes, worker->capture.length, KILTESHVA_LINEARIZABLE, worker->budget, answer,
                        sizeof answer);
        if (round == 0) memcpy(worker->answer, answer, sizeof answer);
        worker->same = round == 0 || (worker->same && memcmp(worker->answer, answer, sizeof answer) == 0);
    }
    return NULL;
}

int main(void) {
    static struct worker workers[THREADS];
    pthread_attr_t small;
    check(pthread_attr_init(&small) == 0 && pthread_attr_setstacksize(&small, STACK) == 0, "a stack of 256 KiB");
    for (int i = 0; i < THREADS; i++) {
        workers[i].capture = i % 2 == 0 ? long_search() : reads(64);
        workers[i].budget = BUDGET + (uint64_t)i;
        if (pthread_create(&workers[i].thread, &small, work, &workers[i]) != 0) {
            check(false, "a thread with this stack");
            return closing();
        }
    }
    for (int i = 0; i < THREADS; i++) {
        pthread_join(workers[i].thread, NULL);
        const uint8_t *answer = workers[i].answer;
        uint64_t attempts = i % 2 == 0 ? workers[i].budget : 64;
        uint8_t verdict = i % 2 == 0 ? KILTESHVA_UNDECIDED : KILTESHVA_ORDER;
        bool right = answer[KILTESHVA_AT_VERDICT] == verdict && kilteshva_attempts(answer) == attempts;
        check(workers[i].same && right, "each thread gets its own answer, every time");
    }
    return closing();
}
