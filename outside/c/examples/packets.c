/* Packets that go from one thread to another and back into a pool: one thread fills them, the other reads them.

   Each thread has a handle. The writer pulls a place into a ring and fills the packet of its number; the reader reads that packet
   and returns the place out of the ring. So no place is copied, nothing takes memory after the start, and a packet is never written
   while it is read. */
#include "kundratu_pool.h"
#include <pthread.h>
#include <sched.h>
#include <stdatomic.h>
#include <stdio.h>
#include <stdlib.h>
#include <string.h>

enum { PACKETS = 64, ROOM = 16, SENT = 100000, TOGETHER = 4 };

struct packet {
    size_t number;
    char text[60];
};

static struct packet packets[PACKETS];

/* Places on their way: those of the numbers from taken on, below put. */
static kdr_place ring[ROOM];
static atomic_size_t put, taken;

static void must(kdr_status answer) {
    if (answer != KDR_DONE) {
        fprintf(stderr, "a call answered %d\n", (int)answer);
        exit(1);
    }
}

static void *write_all(void *handle) {
    for (size_t number = 0; number < SENT; number++) {
        while (number - atomic_load(&taken) == ROOM) {
            sched_yield();
        }
        kdr_place *place = &ring[number % ROOM];
        /* There are more places than the ring has room for, so one is free. After some it goes on to another page, apart from
           where the reader returns them. */
        must(kdr_place_pull(handle, number / TOGETHER, place));
        struct packet *packet = &packets[kdr_place_number(place)];
        packet->number = number;
        snprintf(packet->text, sizeof packet->text, "packet %zu", number);
        atomic_store(&put, number + 1);
    }
    return NULL;
}

static void *read_all(void *handle) {
    char wanted[sizeof packets->text];
    for (size_t number = 0; number < SENT; number++) {
        while (atomic_load(&put) == number) {
            sched_yield();
        }
        kdr_place *place = &ring[number % ROOM];
        const struct packet *packet = &packets[kdr_place_number(place)];
        snprintf(wanted, sizeof wanted, "packet %zu", number);
        if (packet->number != number || strcmp(packet->text, wanted)) {
            fprintf(stderr, "packet %zu came as '%s'\n", number, packet->text);
            exit(1);
        }
        must(kdr_place_return(handle, place));
        atomic_store(&taken, number + 1);
    }
    return NULL;
}

int main(void) {
    kdr_handle writers = KDR_HANDLE_EMPTY, readers = KDR_HANDLE_EMPTY;
    pthread_t writer, reader;
    for (size_t at = 0; at < ROOM; at++) {
        ring[at] = KDR_PLACE_EMPTY;
    }
    must(kdr_pool_new(PACKETS, &writers));
    must(kdr_pool_share(&writers, &readers));
    if (pthread_create(&writer, NULL, write_all, &writers) || pthread_create(&reader, NULL, read_all, &readers)) {
        return 1;
    }
    pthread_join(writer, NULL);
    pthread_join(reader, NULL);
    kdr_pool_drop(&readers);
    kdr_pool_drop(&writers);
    printf("%d packets came as they were sent\n", SENT);
    return 0;
}
