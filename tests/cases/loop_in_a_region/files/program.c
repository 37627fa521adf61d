#include <pthread.h>
#include <stdio.h>
#include "cfix.h"

int flag = 1;

void work(void);
void *worker(void *arg);
void *stopper(void *arg);

void work(void) {
}

void *worker(void *arg) {
    cfix_enter(0);
    while ((flag) || (cfix_leave(0), 0)) {
        work();
    }
    return NULL;
}

void *stopper(void *arg) {
    cfix_enter(0);
    flag = 0;
    cfix_leave(0);
    return NULL;
}

int main(void) {
    pthread_t t;
    pthread_t u;
    pthread_create(&t, NULL, worker, NULL);
    pthread_create(&u, NULL, stopper, NULL);
    return 0;
}
