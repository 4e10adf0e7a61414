/*
 * Four threads that write packets of every kind and note each one themselves, beside a service that collects and reads as chance has it.
 *
 *     noted TRACE NOTES SEED
 *
 * The notes are a scenario whose lines emit what the threads wrote, so `tracesmb check` says whether the trace fits them:
 * (cat NOTES; echo ==; cat TRACE) | tracesmb check. Set-up, packets and rounds follow from the seed, so that some runs lose packets in each of
 * the ways there are.
 */
#include "tracesmb.h"

#include <pthread.h>
#include <stdarg.h>
#include <stdatomic.h>
#include <stdio.h>
#include <stdlib.h>
#include <string.h>

enum { WRITERS = 4, ROUNDS = 2, ROOM = 4096, NOTES_ROOM = 8 << 20 };

static struct tracesmb_setup setup;
static atomic_int running;

static void must(uint32_t answer, const char *what) {
    if (answer == TRACESMB_OK || answer == TRACESMB_DROPPING) return;
    fprintf(stderr, "%s: answer %u\n", what, (unsigned)answer);
    exit(1);
}

/* A number below `limit`, and the next state of the thread's own chance. */
static uint32_t chance(uint64_t *state, uint32_t limit) {
    *state ^= *state << 13;
    *state ^= *state >> 7;
    *state ^= *state << 17;
    return (uint32_t)((*state >> 33) % limit);
}

struct thread {
    tracesmb_writer writer;
    unsigned number;
    uint64_t state;
    uint64_t packets; /* so many are begun */
    uint64_t dropped; /* so many of them found no chunk as they began */
    char *notes;
    size_t noted;
};

static void note(struct thread *thread, const char *form, ...) {
    va_list rest;
    va_start(rest, form);
    size_t room = NOTES_ROOM - thread->noted;
    int length = vsnprintf(thread->notes + thread->noted, room, form, rest);
    va_end(rest);
    if (length < 0 || (size_t)length >= room) exit(1);
    thread->noted += (size_t)length;
}

/* A packet by one call. */
static void write_event(struct thread *thread) {
    uint8_t name[64];
    size_t length = chance(&thread->state, sizeof name);
    memset(name, 'a' + (int)chance(&thread->state, 26), sizeof name);
    uint32_t kind = 1 + chance(&thread->state, 4);
    uint64_t value = thread->state;
    uint32_t answer = tracesmb_writer_event(&thread->writer, kind, thread->packets, thread->number, value, name, length);
    must(answer, "event");
    thread->dropped += answer == TRACESMB_DROPPING;
    note(thread, "p %u 8:%llu 11{9:%u 11:%u", thread->number, (unsigned long long)thread->packets, (unsigned)kind, thread->number);
    if (length > 0) note(thread, " 23:\"%.*s\"", (int)length, (const char *)name);
    if (kind == TRACESMB_COUNTER) note(thread, " 30:%llu", (unsigned long long)value);
    note(thread, "}\n");
}

/* A packet by a call for each field: a text that may run over several chunks stands within so many messages. */
static void write_fields(struct thread *thread) {
    static const char text[] = "packet text";
    uint32_t depth = chance(&thread->state, 5);
    uint32_t texts = chance(&thread->state, 8) == 0 ? chance(&thread->state, 1000) : chance(&thread->state, 10);
    uint32_t begun = tracesmb_writer_begin(&thread->writer);
    must(begun, "begin");
    thread->dropped += begun == TRACESMB_DROPPING;
    must(tracesmb_writer_varint(&thread->writer, 8, thread->packets), "varint");
    if (tracesmb_writer_varint(&thread->writer, 10, 1) != TRACESMB_REFUSED) exit(1); /* a field of the service's own */
    note(thread, "p %u 8:%llu", thread->number, (unsigned long long)thread->packets);
    for (uint32_t level = 0; level < depth; level++) {
        must(tracesmb_writer_begin_nested(&thread->writer, 900 + level), "begin nested");
        note(thread, "%s%u{", level == 0 ? " " : "", 900 + level);
    }
    for (uint32_t times = 0; times < texts; times++) {
        must(tracesmb_writer_bytes(&thread->writer, 500, (const uint8_t *)text, sizeof text - 1), "bytes");
        note(thread, "%s500:\"%s\"", times == 0 && depth > 0 ? "" : " ", text);
    }
    for (uint32_t level = 0; level < depth; level++) {
        must(tracesmb_writer_end_nested(&thread->writer), "end nested");
        note(thread, "}");
    }
    must(tracesmb_writer_finish(&thread->writer), "finish");
    note(thread, "\n");
}

static void *write_all(void *given) {
    struct thread *thread = given;
    for (uint32_t left = chance(&thread->state, 400); left > 0; left--) {
        if (chance(&thread->state, 3) == 0) write_fields(thread);
        else write_event(thread);
        thread->packets++;
        if (chance(&thread->state, 20) == 0) must(tracesmb_writer_flush(&thread->writer), "flush");
    }
    atomic_fetch_sub(&running, 1);
    return NULL;
}

static void read_some(tracesmb_session *session, FILE *out, size_t room_len, bool all) {
    static uint8_t room[ROOM];
    size_t given;
    do {
        must(tracesmb_session_read(session, room, room_len, &given), "read");
        if (fwrite(room, 1, given, out) != given) exit(1);
    } while (all && given > 0);
}

struct service {
    tracesmb_session *session;
    FILE *out;
    uint64_t state;
};

static void *serve(void *given) {
    struct service *service = given;
    while (atomic_load(&running) > 0) {
        uint64_t taken;
        uint32_t producer = 1 + chance(&service->state, setup.producers);
        must(tracesmb_session_collect(service->session, producer, chance(&service->state, 4) == 0, &taken), "collect");
        if (chance(&service->state, 3) == 0) read_some(service->session, service->out, 1 + chance(&service->state, ROOM), chance(&service->state, 2) == 0);
    }
    return NULL;
}

static struct tracesmb_setup some_setup(uint64_t *state) {
    static const uint32_t chunks[] = {1, 2, 4, 7, 14};
    struct tracesmb_setup some;
    some.writers = WRITERS;
    some.producers = 1 + chance(state, WRITERS);
    some.pages = chance(state, 2) == 0 ? 64 : 4 + chance(state, 12);
    some.page_size = 4096 * (1 + chance(state, 2));
    some.chunks = chunks[chance(state, 5)];
    some.buffer_kb = chance(state, 4) == 0 ? 64 : 4096;
    some.full = chance(state, 3) == 0 ? TRACESMB_DISCARD : TRACESMB_RING;
    return some;
}

/* One round: each writer is lent to a thread and comes home, so that the next round has it on another thread. */
static void play_round(struct service *service, struct thread *threads) {
    pthread_t running_threads[WRITERS], service_thread;
    atomic_store(&running, WRITERS);
    for (unsigned n = 0; n < WRITERS; n++) must(tracesmb_session_lend(service->session, threads[n].number, &threads[n].writer), "lend");
    if (pthread_create(&service_thread, NULL, serve, service)) exit(1);
    for (unsigned n = 0; n < WRITERS; n++)
        if (pthread_create(&running_threads[n], NULL, write_all, &threads[n])) exit(1);
    for (unsigned n = 0; n < WRITERS; n++) pthread_join(running_threads[n], NULL);
    pthread_join(service_thread, NULL);
    for (unsigned n = 0; n < WRITERS; n++) must(tracesmb_session_take_back(service->session, &threads[n].writer), "take back");
}

static void write_notes(const char *path, const struct thread *threads) {
    FILE *out = fopen(path, "wb");
    if (!out) exit(1);
    fprintf(out, "buffer %u %s\n", (unsigned)setup.buffer_kb, setup.full == TRACESMB_RING ? "ring" : "discard");
    for (uint32_t n = 0; n < setup.producers; n++) fprintf(out, "producer %u %u %u\n", (unsigned)setup.pages, (unsigned)setup.page_size, (unsigned)setup.chunks);
    for (uint32_t n = 0; n < WRITERS; n++) fprintf(out, "writer %u 1 drop\n", (unsigned)(n % setup.producers + 1));
    for (unsigned n = 0; n < WRITERS; n++) fwrite(threads[n].notes, 1, threads[n].noted, out);
    if (fclose(out)) exit(1);
}

int main(int argc, char **argv) {
    if (argc != 4) return 1;
    uint64_t state = 88172645463325252u + strtoull(argv[3], NULL, 10) * 0x9e3779b97f4a7c15u;
    for (int n = 0; n < 16; n++) chance(&state, 2);
    setup = some_setup(&state);
    FILE *out = fopen(argv[1], "wb");
    if (!out) return 1;

    tracesmb_session session = TRACESMB_EMPTY;
    must(tracesmb_session_create(&session, &setup), "create");
    struct service service = {&session, out, state};
    struct thread threads[WRITERS];
    for (unsigned n = 0; n < WRITERS; n++) {
        struct thread fresh = {TRACESMB_EMPTY, n + 1, state + n + 1, 0, 0, malloc(NOTES_ROOM), 0};
        if (!fresh.notes) return 1;
        threads[n] = fresh;
    }
    for (int round = 0; round < ROUNDS; round++) play_round(&service, threads);
    must(tracesmb_session_stop(&session), "stop");
    read_some(&session, out, ROOM, true);
    struct tracesmb_losses losses[WRITERS];
    must(tracesmb_session_close(&session, losses, WRITERS), "close");
    if (fclose(out)) return 1;
    write_notes(argv[2], threads);

    uint64_t delivered = 0, lost = 0;
    for (unsigned n = 0; n < WRITERS; n++) {
        struct tracesmb_losses *l = &losses[n];
        if (l->begun != threads[n].packets || l->dropped < threads[n].dropped || l->begun != l->delivered + l->dropped + l->overwritten + l->discarded + l->cut) return 1;
        delivered += l->delivered;
        lost += l->begun - l->delivered;
        free(threads[n].notes);
    }
    printf("agrees %llu\nlost %llu\n", (unsigned long long)delivered, (unsigned long long)lost);
    return 0;
}
