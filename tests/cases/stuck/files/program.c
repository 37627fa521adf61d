pthread_mutex_t m;
void *waiter(void *arg) { pthread_mutex_lock(&m); return NULL; }
int main(void) {
    pthread_t t;
    pthread_mutex_lock(&m);
    pthread_create(&t, NULL, waiter, NULL);
    pthread_join(t, NULL);
}
