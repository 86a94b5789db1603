/* Messages per second over DPDK's rte_ring, multi-producer enqueue and single-consumer dequeue: a yardstick for the ring.
 * The messages are pointers, and then elements of 40 bytes, as large as those of ring_bench. The ring is made in plain memory,
 * without DPDK's environment layer.
 *
 *   rte_ring MESSAGES
 *
 * Built by bench/ring.sh where the package libdpdk-dev is there. */
#include <pthread.h>
#include <sched.h>
#include <stdint.h>
#include <stdio.h>
#include <stdlib.h>
#include <time.h>

#include <rte_ring.h>
#include <rte_ring_elem.h>

enum { SLOTS = 1024, BURST = 8, RUNS = 5, MOST_SENDERS = 3, NOTE = 40 };

struct sender {
    pthread_t thread;
    struct rte_ring *ring;
    uint64_t messages;
    unsigned burst;
    unsigned size;
};

/* A burst of elements of either size. */
typedef struct {
    _Alignas(64) unsigned char bytes[BURST * NOTE];
} burst_of;

static struct rte_ring *new_ring(unsigned size) {
    size_t bytes = (size_t)rte_ring_get_memsize_elem(size, SLOTS);
    struct rte_ring *ring = aligned_alloc(64, (bytes + 63) / 64 * 64);
    if (!ring || rte_ring_init(ring, "yardstick", SLOTS, RING_F_SC_DEQ)) {
        fprintf(stderr, "no ring\n");
        exit(1);
    }
    return ring;
}

static double seconds(void) {
    struct timespec t;
    clock_gettime(CLOCK_MONOTONIC, &t);
    return (double)t.tv_sec + (double)t.tv_nsec * 1e-9;
}

/* The size is a constant in each of the two calls, so that the copies are made for it. */
static inline unsigned put(struct rte_ring *ring, const void *burst, unsigned size, unsigned count) {
    if (size == NOTE) return rte_ring_mp_enqueue_bulk_elem(ring, burst, NOTE, count, NULL);
    return rte_ring_mp_enqueue_bulk_elem(ring, burst, sizeof(void *), count, NULL);
}

static inline unsigned take(struct rte_ring *ring, void *burst, unsigned size, unsigned count) {
    if (size == NOTE) return rte_ring_sc_dequeue_burst_elem(ring, burst, NOTE, count, NULL);
    return rte_ring_sc_dequeue_burst_elem(ring, burst, sizeof(void *), count, NULL);
}

static void send_burst(struct rte_ring *ring, const void *burst, unsigned size, unsigned count) {
    while (put(ring, burst, size, count) == 0) sched_yield();
}

static double one_thread(uint64_t messages, unsigned batch, unsigned burst, unsigned size) {
    struct rte_ring *ring = new_ring(size);
    burst_of sent = {{1}}, taken;
    double start = seconds();
    for (uint64_t m = 0; m < messages; m += batch) {
        for (unsigned i = 0; i < batch; i += burst) send_burst(ring, sent.bytes + i * size, size, burst);
        for (unsigned left = batch; left > 0;) left -= take(ring, taken.bytes, size, burst < left ? burst : left);
    }
    double spent = seconds() - start;
    free(ring);
    return (double)messages / spent;
}

static void *send_all(void *arg) {
    struct sender *sender = arg;
    burst_of sent = {{1}};
    for (uint64_t m = 0; m < sender->messages; m += sender->burst) send_burst(sender->ring, sent.bytes, sender->size, sender->burst);
    return NULL;
}

static double many_threads(uint64_t messages, unsigned senders, unsigned burst, unsigned size) {
    struct sender sender[MOST_SENDERS];
    struct rte_ring *ring = new_ring(size);
    burst_of taken;
    uint64_t each = messages / senders / burst * burst;
    double start = seconds();
    for (unsigned s = 0; s < senders; s++) {
        sender[s] = (struct sender){.ring = ring, .messages = each, .burst = burst, .size = size};
        if (pthread_create(&sender[s].thread, NULL, send_all, &sender[s])) exit(1);
    }
    for (uint64_t got = 0; got < each * senders;) {
        unsigned count = take(ring, taken.bytes, size, BURST);
        if (count == 0) sched_yield();
        got += count;
    }
    double spent = seconds() - start;
    for (unsigned s = 0; s < senders; s++) pthread_join(sender[s].thread, NULL);
    free(ring);
    return (double)(each * senders) / spent;
}

static double empty(uint64_t takes, unsigned size) {
    struct rte_ring *ring = new_ring(size);
    burst_of taken;
    uint64_t got = 0;
    double start = seconds();
    for (uint64_t i = 0; i < takes; i++) {
        got += take(ring, taken.bytes, size, BURST);
        __asm__ volatile("" ::: "memory");
    }
    double spent = seconds() - start;
    free(ring);
    return got == 0 ? (double)takes / spent : 0;
}

#define BEST(name, run) \
    do { \
        double best = 0; \
        for (int i = 0; i < RUNS; i++) { \
            double rate = run; \
            if (rate > best) best = rate; \
        } \
        printf("%-20s rte_ring of %2u bytes %10.0f\n", name, size, best); \
    } while (0)

static void measure(uint64_t messages, unsigned size) {
    BEST("one thread, 1 and 1", one_thread(messages, 1, 1, size));
    BEST("one thread, 8 and 8", one_thread(messages, 8, 1, size));
    BEST("8 at a time", one_thread(messages, 8, 8, size));
    BEST("1 sending thread", many_threads(messages, 1, 1, size));
    BEST("2 sending threads", many_threads(messages, 2, 1, size));
    BEST("3 sending threads", many_threads(messages, 3, 1, size));
    BEST("1, 8 at a time", many_threads(messages, 1, 8, size));
    BEST("2, 8 at a time", many_threads(messages, 2, 8, size));
    BEST("3, 8 at a time", many_threads(messages, 3, 8, size));
    BEST("takes of nothing", empty(messages, size));
}

int main(int argc, char **argv) {
    uint64_t messages = argc > 1 ? strtoull(argv[1], NULL, 10) : 1000000;
    measure(messages, sizeof(void *));
    measure(messages, NOTE);
    return 0;
}
