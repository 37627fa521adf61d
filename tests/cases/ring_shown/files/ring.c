#include <pthread.h>
#include <stdio.h>
#define SLOTS 4
#define ITEMS 6

/* a ring shared by one producer and two consumers */
static int ring[SLOTS];
int head, tail;
int filled = 0;
int served;
int limit;
pthread_mutex_t guard = PTHREAD_MUTEX_INITIALIZER;

int room(void) {
    if (filled < SLOTS) return 1;
    else return 0;
}

void put(int item) {
    ring[head] = item;      // one slot
    head = (head + 1) % SLOTS;
    filled++;
}

int get(void) {
    int item = ring[tail];
    tail = (tail + 1) % SLOTS;
    filled--;
    return item;
}

void *producer(void *arg) {
    limit = ITEMS;
    for (int i = 0; i < ITEMS; i++) {
        int ok = 0;
        while (!ok) {
            pthread_mutex_lock(&guard);
            ok = room();
            if (ok) put(i);
            pthread_mutex_unlock(&guard);
        }
    }
    return NULL;
}

void *consumer(void *arg) {
    int id = (int)(long)arg;
    while (served < limit) {
        int item = -1;
        pthread_mutex_lock(&guard);
        if (filled > 0) item = get();
        pthread_mutex_unlock(&guard);
        if (item >= 0) {
            served++;
            printf("consumer %d: %d\n", id, item);
        }
    }
    return NULL;
}

int main(void) {
    pthread_t t[3];
    int k = 1;
    pthread_create(&t[0], NULL, producer, NULL);
    while (k < 3) {
        pthread_create(&t[k], NULL, consumer, (void *)(long)k);
        k++;
    }
    for (k = 0; k < 3; k++) pthread_join(t[k], NULL);
    printf("served %d\n", served);
    return 0;
}
