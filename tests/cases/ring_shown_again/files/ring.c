#include <pthread.h>
#include <stdio.h>

int ring[4];
int head = 0;
int tail = 0;
int filled = 0;
int served = 0;
int limit = 0;
pthread_mutex_t guard = PTHREAD_MUTEX_INITIALIZER;

int room(void);
void put(int item);
int get(void);
void *producer(void *arg);
void *consumer(void *arg);

int room(void) {
    if (filled < 4) {
        return 1;
    } else {
        return 0;
    }
}

void put(int item) {
    ring[head] = item;
    head = (head + 1) % 4;
    filled++;
}

int get(void) {
    int item = ring[tail];
    tail = (tail + 1) % 4;
    filled--;
    return item;
}

void *producer(void *arg) {
    limit = 6;
    {
        int i = 0;
        for (; i < 6; i++) {
            int ok = 0;
            while (!ok) {
                pthread_mutex_lock(&guard);
                ok = room();
                if (ok) {
                    put(i);
                }
                pthread_mutex_unlock(&guard);
            }
        }
    }
    return NULL;
}

void *consumer(void *arg) {
    int id = (int)(long)arg;
    while (served < limit) {
        int item = -1;
        pthread_mutex_lock(&guard);
        if (filled > 0) {
            item = get();
        }
        pthread_mutex_unlock(&guard);
        if (item >= 0) {
            served++;
            printf("consumer %d: %d\n", id, item);
        }
    }
    return NULL;
}

int main(void) {
    pthread_t t[3];
    int k = 1;
    pthread_create(&t[0], NULL, producer, NULL);
    while (k < 3) {
        pthread_create(&t[k], NULL, consumer, (void *)(long)k);
        k++;
    }
    {
        k = 0;
        for (; k < 3; k++) {
            pthread_join(t[k], NULL);
        }
    }
    printf("served %d\n", served);
    return 0;
}
