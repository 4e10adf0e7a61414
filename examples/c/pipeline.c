/*
 * A pipeline of four threads, traced: a reader cuts a text into lines, two workers count the words of each line, and a printer adds up. A queue is
 * between the reader and the workers and another one between the workers and the printer. A fifth thread is the service.
 *
 *     pipeline TRACE [LINES]
 *
 */
#include "tracesmb_events.h"

#include <pthread.h>
#include <stdatomic.h>
#include <stdio.h>
#include <stdlib.h>
#include <string.h>

TRACESMB_DEFINE_HERE;

enum { READER = 1, FIRST_WORKER = 2, SECOND_WORKER = 3, PRINTER = 4, WRITERS = 4, LINES_TRACK = 11, COUNTS_TRACK = 12 };

static const char text[] = "the quick brown fox jumps over the lazy dog and runs on";

/* ---- a queue that waits where it is full or empty ---- */

enum { QUEUE_ROOM = 16 };

struct queue {
    pthread_mutex_t lock;
    pthread_cond_t changed;
    int items[QUEUE_ROOM];
    int first, count;
    int writers; /* who may still put something in */
};

static void queue_make(struct queue *queue, int writers) {
    memset(queue, 0, sizeof *queue);
    pthread_mutex_init(&queue->lock, NULL);
    pthread_cond_init(&queue->changed, NULL);
    queue->writers = writers;
}

static void queue_free(struct queue *queue) {
    pthread_cond_destroy(&queue->changed);
    pthread_mutex_destroy(&queue->lock);
}

static int queue_put(struct queue *queue, int item) {
    pthread_mutex_lock(&queue->lock);
    while (queue->count == QUEUE_ROOM) pthread_cond_wait(&queue->changed, &queue->lock);
    queue->items[(queue->first + queue->count) % QUEUE_ROOM] = item;
    int depth = ++queue->count;
    pthread_cond_broadcast(&queue->changed);
    pthread_mutex_unlock(&queue->lock);
    return depth;
}

/* False says that nothing comes any more. */
static bool queue_take(struct queue *queue, int *item) {
    pthread_mutex_lock(&queue->lock);
    while (queue->count == 0 && queue->writers > 0) pthread_cond_wait(&queue->changed, &queue->lock);
    bool some = queue->count > 0;
    if (some) {
        *item = queue->items[queue->first];
        queue->first = (queue->first + 1) % QUEUE_ROOM;
        queue->count--;
        pthread_cond_broadcast(&queue->changed);
    }
    pthread_mutex_unlock(&queue->lock);
    return some;
}

static void queue_leave(struct queue *queue) {
    pthread_mutex_lock(&queue->lock);
    queue->writers--;
    pthread_cond_broadcast(&queue->changed);
    pthread_mutex_unlock(&queue->lock);
}

/* ---- the pipeline ---- */

static struct queue lines, counts;
static int line_count = 1000;
static long long words_in_all;
static atomic_int running = WRITERS;

struct job {
    tracesmb_writer *writer;
    uint64_t track;
    const char *name;
    void (*run)(void);
};

static void read_lines(void) {
    for (int line = 0; line < line_count; line++) {
        TRACESMB_SLICE("read line");
        int depth = queue_put(&lines, line);
        TRACESMB_COUNT(LINES_TRACK, depth);
    }
    queue_leave(&lines);
}

static int words_of(const char *from) {
    int words = 0;
    for (bool inside = false; *from; from++) {
        if (*from != ' ' && !inside) words++;
        inside = *from != ' ';
    }
    return words;
}

static void count_words(void) {
    int line;
    while (queue_take(&lines, &line)) {
        TRACESMB_SLICE("count words");
        int words = words_of(text + line % 20);
        if (words % 7 == 0) TRACESMB_INSTANT_EVENT("seven words");
        {
            TRACESMB_SLICE("hand on");
            queue_put(&counts, words);
        }
    }
    queue_leave(&counts);
}

static void add_up(void) {
    int words;
    while (queue_take(&counts, &words)) {
        TRACESMB_BEGIN_SLICE("add up");
        words_in_all += words;
        TRACESMB_COUNT(COUNTS_TRACK, words_in_all);
        TRACESMB_END_SLICE();
    }
}

static void *run_job(void *given) {
    struct job *job = given;
    tracesmb_trace_on(job->writer, job->track);
    job->run();
    tracesmb_trace_on(NULL, 0);
    tracesmb_writer_flush(job->writer);
    atomic_fetch_sub(&running, 1);
    return NULL;
}

/* ---- the service ---- */

static void must(uint32_t answer, const char *what) {
    if (answer == TRACESMB_OK || answer == TRACESMB_DROPPING) return;
    fprintf(stderr, "%s: answer %u\n", what, (unsigned)answer);
    exit(1);
}

static void read_all(tracesmb_session *session, FILE *out) {
    static uint8_t room[65536];
    for (size_t given = 1; given > 0;) {
        must(tracesmb_session_read(session, room, sizeof room, &given), "read");
        if (fwrite(room, 1, given, out) != given) exit(1);
    }
}

struct service {
    tracesmb_session *session;
    FILE *out;
};

static void *serve(void *given) {
    struct service *service = given;
    while (atomic_load(&running) > 0) {
        for (uint32_t producer = 1; producer <= WRITERS; producer++) {
            uint64_t taken;
            must(tracesmb_session_collect(service->session, producer, false, &taken), "collect");
        }
        read_all(service->session, service->out);
    }
    return NULL;
}

int main(int argc, char **argv) {
    if (argc < 2) return 1;
    if (argc > 2) line_count = atoi(argv[2]);
    FILE *out = fopen(argv[1], "wb");
    if (!out) return 1;

    struct tracesmb_setup setup = {WRITERS, WRITERS, 16, 4096, 14, 4096, TRACESMB_RING};
    tracesmb_session session = TRACESMB_EMPTY;
    must(tracesmb_session_create(&session, &setup), "create");
    tracesmb_writer writers[WRITERS] = {TRACESMB_EMPTY, TRACESMB_EMPTY, TRACESMB_EMPTY, TRACESMB_EMPTY};
    for (uint32_t n = 0; n < WRITERS; n++) must(tracesmb_session_lend(&session, n + 1, &writers[n]), "lend");

    struct job jobs[WRITERS] = {
        {&writers[0], READER, "reader", read_lines},
        {&writers[1], FIRST_WORKER, "first worker", count_words},
        {&writers[2], SECOND_WORKER, "second worker", count_words},
        {&writers[3], PRINTER, "printer", add_up},
    };
    for (int n = 0; n < WRITERS; n++) must(tracesmb_describe_track(jobs[n].writer, jobs[n].track, jobs[n].name, strlen(jobs[n].name), false), "describe");
    must(tracesmb_describe_track(&writers[0], LINES_TRACK, "lines that wait", 15, true), "describe");
    must(tracesmb_describe_track(&writers[3], COUNTS_TRACK, "words in all", 12, true), "describe");

    queue_make(&lines, 1);
    queue_make(&counts, 2);
    pthread_t threads[WRITERS], service_thread;
    struct service service = {&session, out};
    if (pthread_create(&service_thread, NULL, serve, &service)) return 1;
    for (int n = 0; n < WRITERS; n++)
        if (pthread_create(&threads[n], NULL, run_job, &jobs[n])) return 1;
    for (int n = 0; n < WRITERS; n++) pthread_join(threads[n], NULL);
    pthread_join(service_thread, NULL);

    for (int n = 0; n < WRITERS; n++) must(tracesmb_session_take_back(&session, &writers[n]), "take back");
    must(tracesmb_session_stop(&session), "stop");
    read_all(&session, out);
    struct tracesmb_losses losses[WRITERS];
    must(tracesmb_session_close(&session, losses, WRITERS), "close");
    queue_free(&lines);
    queue_free(&counts);
    for (int n = 0; n < WRITERS; n++) {
        struct tracesmb_losses *l = &losses[n];
        printf("%s: begun %llu delivered %llu dropped %llu overwritten %llu discarded %llu cut %llu\n", jobs[n].name, (unsigned long long)l->begun,
               (unsigned long long)l->delivered, (unsigned long long)l->dropped, (unsigned long long)l->overwritten, (unsigned long long)l->discarded,
               (unsigned long long)l->cut);
        if (l->begun != l->delivered + l->dropped + l->overwritten + l->discarded + l->cut) return 1;
    }
    printf("words %lld\n", words_in_all);
    return fclose(out) ? 1 : 0;
}
