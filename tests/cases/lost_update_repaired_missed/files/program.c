#include <pthread.h>
#include <stdio.h>
#include "cfix.h"

int count = 0;

void *worker(void *arg);

void *worker(void *arg) {
    cfix_enter(0);
    count++;
    cfix_leave(0);
    return NULL;
}

int main(void) {
    pthread_t a;
    pthread_t b;
    pthread_create(&a, NULL, worker, NULL);
    pthread_create(&b, NULL, worker, NULL);
    pthread_join(a, NULL);
    pthread_join(b, NULL);
    printf("%d\n", count);
    return 0;
}
