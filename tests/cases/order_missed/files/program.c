#include <pthread.h>
#include <stdio.h>
#define CFIX_START_0 1
#include "cfix.h"

int ready = 0;
int on = 0;

void *setter(void *arg);

void *setter(void *arg) {
    if ((on) || (cfix_done(0), 0)) {
        ready = 1;
        cfix_first(0);
        cfix_done(0);
    }
    return NULL;
}

int main(void) {
    pthread_t t;
    cfix_add(0);
    pthread_create(&t, NULL, setter, NULL);
    cfix_done(0);
    cfix_wait(0);
    printf("%d\n", ready);
    return 0;
}
