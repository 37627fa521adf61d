#include <pthread.h>
#include <stdio.h>
#include "cfix.h"

int x = 0;
int y = 0;

void f(void);
void *worker(void *arg);

void f(void) {
    while ((1) && (cfix_enter(0), 1)) {
        x = 1;
        break;
    }
    y = x;
    cfix_leave(0);
}

void *worker(void *arg) {
    f();
    return NULL;
}

int main(void) {
    pthread_t t;
    pthread_create(&t, NULL, worker, NULL);
    pthread_join(t, NULL);
    return 0;
}
