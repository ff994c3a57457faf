#include <pthread.h>
#include <assert.h>

int limit = 8;
int done;
int total;
pthread_mutex_t lock = PTHREAD_MUTEX_INITIALIZER;

int clamp(int v, int top);

int succ(int v)
{
    return v + 1;
}

int clamp(int v, int top)
{
    if (v < 0)
        return 0;
    if (v > top)
        return top;
    return v;
}

void *worker(void *arg)
{
    int i;
    for (i = 0; i < 4; i++) {
        pthread_mutex_lock(&lock);
        total = clamp(succ(i), limit);
        pthread_mutex_unlock(&lock);
    }
    done = 1;
    return NULL;
}

int main(void)
{
    pthread_t a, b;
    int seen = 0;

    pthread_create(&a, NULL, worker, NULL);
    pthread_create(&b, NULL, worker, NULL);
    while (!done)
        seen++;
    pthread_join(a, NULL);
    pthread_join(b, NULL);
    pthread_mutex_lock(&lock);
    seen = total;
    pthread_mutex_unlock(&lock);
    assert(seen >= 0);
    return 0;
}
