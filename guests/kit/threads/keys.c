// Keys, under each of which each thread has a value of its own. A key is a slot's number and, above it, how many keys were made
// before; so a value that was set under an earlier key of the slot isn't found under a later one.
#include "kernel.h"

static struct slot {
    pthread_key_t key; // 0: free
    void (*destructor)(void *value);
} slots[PTHREAD_KEYS_MAX];

static pthread_mutex_t mutex = PTHREAD_MUTEX_INITIALIZER;
static uint32_t made; // under the mutex, as the slots are

// So that thread.c is linked, whose threads end by `romain_end_thread`.
__attribute__((used)) static int (*const with_threads)(pthread_attr_t *) = pthread_attr_init;

// Each thread looks at its own alone.
static struct own_value {
    pthread_key_t key;
    void *value;
} values[ROMAIN_THREADS][PTHREAD_KEYS_MAX];

static struct own_value *own_of(pthread_key_t key)
{
    return &values[romain_self()][key % PTHREAD_KEYS_MAX];
}

static int fill_slot(pthread_key_t *key, void (*destructor)(void *value))
{
    for (uint32_t i = 0; i < PTHREAD_KEYS_MAX; i++)
        if (slots[i].key == 0) {
            *key = ++made * PTHREAD_KEYS_MAX + i;
            slots[i] = (struct slot) { *key, destructor };
            return 0;
        }
    return EAGAIN;
}

int pthread_key_create(pthread_key_t *key, void (*destructor)(void *))
{
    int error = romain_error(kernel_mutex_lock(&mutex));
    if (error != 0)
        return error;
    error = fill_slot(key, destructor);
    kernel_mutex_unlock(&mutex);
    return error;
}

int pthread_key_delete(pthread_key_t key)
{
    int error = romain_error(kernel_mutex_lock(&mutex));
    if (error != 0)
        return error;
    struct slot *slot = &slots[key % PTHREAD_KEYS_MAX];
    if (slot->key == key)
        slot->key = 0;
    else
        error = EINVAL;
    kernel_mutex_unlock(&mutex);
    return error;
}

void *pthread_getspecific(pthread_key_t key)
{
    const struct own_value *own = own_of(key);
    return own->key == key ? own->value : NULL;
}

int pthread_setspecific(pthread_key_t key, const void *value)
{
    *own_of(key) = (struct own_value) { key, (void *)(uintptr_t)value };
    return 0;
}

// What destroys values of this key; NULL where nothing does, or the key was deleted.
static void (*destructor_of(pthread_key_t key))(void *value)
{
    const struct slot *slot = &slots[key % PTHREAD_KEYS_MAX];
    if (kernel_mutex_lock(&mutex) != 0)
        return NULL;
    void (*destructor)(void *value) = slot->key == key ? slot->destructor : NULL;
    kernel_mutex_unlock(&mutex);
    return destructor;
}

// Whether one was called, which may have set further values.
static bool destroy_values(struct own_value *own)
{
    bool was_called = false;
    for (int i = 0; i < PTHREAD_KEYS_MAX; i++) {
        void *value = own[i].value;
        void (*destructor)(void *value) = value != NULL ? destructor_of(own[i].key) : NULL;
        own[i].value = NULL;
        if (destructor != NULL) {
            destructor(value);
            was_called = true;
        }
    }
    return was_called;
}

void romain_end_thread(void)
{
    for (int i = 0; i < PTHREAD_DESTRUCTOR_ITERATIONS; i++)
        if (!destroy_values(values[romain_self()]))
            return;
}
