/*
 * Slices, instants and counters in a line, above tracesmb.h. A thread that traces says so by tracesmb_trace_on; in any other thread an event is
 * a branch and nothing more. One file of the program has TRACESMB_DEFINE_HERE at its top level.
 *
 *     TRACESMB_SLICE("load page");           up to the end of the block
 *     TRACESMB_BEGIN_SLICE("parse"); .. TRACESMB_END_SLICE();
 *     TRACESMB_INSTANT_EVENT("cache miss");
 *     TRACESMB_COUNT(queue_track, depth);
 *
 * A name is a literal, a value a whole number. What an event is given isn't evaluated where the thread traces nothing. A slice of TRACESMB_SLICE
 * that couldn't be begun isn't ended; one that was ends on the track on which it began, so it ends before its writer is given back, and so does
 * the thread's tracing: by tracesmb_trace_on(NULL, 0). No `goto` or `switch` jumps over it into its block, and it is no body of an `if` by itself.
 *
 * It wants POSIX's clock_gettime (with -std=c11 also -D_POSIX_C_SOURCE=200809L), and in C the attribute `cleanup`, which gcc and clang have.
 */
#ifndef TRACESMB_EVENTS_H
#define TRACESMB_EVENTS_H

#include "tracesmb.h"

#include <time.h>

#ifndef CLOCK_MONOTONIC
#error "tracesmb_events.h wants clock_gettime: compile with -D_POSIX_C_SOURCE=200809L"
#endif

/* `__thread` spares C++ the test of whether the variable was made. */
#if defined(__GNUC__)
#define TRACESMB_THREAD_LOCAL __thread
#elif defined(__cplusplus)
#define TRACESMB_THREAD_LOCAL thread_local
#else
#define TRACESMB_THREAD_LOCAL _Thread_local
#endif

/* Where a thread traces to. A NULL writer traces nothing. */
struct tracesmb_place {
    tracesmb_writer *writer;
    uint64_t track;
};

#ifdef __cplusplus
extern "C" {
#endif
extern TRACESMB_THREAD_LOCAL struct tracesmb_place tracesmb_here;
#ifdef __cplusplus
}
#endif
#define TRACESMB_DEFINE_HERE TRACESMB_THREAD_LOCAL struct tracesmb_place tracesmb_here = {NULL, 0}

/* Nanoseconds of a clock that never goes back. */
static inline uint64_t tracesmb_now(void) {
    struct timespec now;
    clock_gettime(CLOCK_MONOTONIC, &now);
    return (uint64_t)now.tv_sec * 1000000000u + (uint64_t)now.tv_nsec;
}

/* An event on a track, at this time. */
static inline uint32_t tracesmb_event_on(tracesmb_writer *writer, uint32_t kind, uint64_t track, uint64_t value, const char *name, size_t name_len) {
    return tracesmb_writer_event(writer, kind, tracesmb_now(), track, value, (const uint8_t *)name, name_len);
}

/* Describes a track by a packet of its own: its name, and whether its events are counts. The first answer that isn't OK or DROPPING is passed on. */
static inline uint32_t tracesmb_describe_track(tracesmb_writer *writer, uint64_t track, const char *name, size_t name_len, bool counts) {
    uint32_t begun = tracesmb_writer_begin(writer);
    if (begun != TRACESMB_OK && begun != TRACESMB_DROPPING) return begun;
    uint32_t answer = tracesmb_writer_begin_nested(writer, 60);
    if (answer == TRACESMB_OK) {
        answer = tracesmb_writer_varint(writer, 1, track);
        if (answer == TRACESMB_OK) answer = tracesmb_writer_bytes(writer, 2, (const uint8_t *)name, name_len);
        if (answer == TRACESMB_OK && counts) {
            answer = tracesmb_writer_begin_nested(writer, 8);
            if (answer == TRACESMB_OK) answer = tracesmb_writer_end_nested(writer);
        }
        uint32_t ended = tracesmb_writer_end_nested(writer);
        if (answer == TRACESMB_OK) answer = ended;
    }
    uint32_t finished = tracesmb_writer_finish(writer);
    if (answer == TRACESMB_OK) answer = finished;
    return answer == TRACESMB_OK ? begun : answer;
}

/* From here on the thread traces to this writer, on this track; or to none, where the writer is NULL. */
static inline void tracesmb_trace_on(tracesmb_writer *writer, uint64_t track) {
    tracesmb_here.writer = writer;
    tracesmb_here.track = track;
}

/* Begins a slice: the place where it ends, which is none where it isn't begun. */
static inline struct tracesmb_place tracesmb_slice_begin(const char *name, size_t name_len) {
    struct tracesmb_place place = tracesmb_here;
    if (place.writer && tracesmb_event_on(place.writer, TRACESMB_BEGIN, place.track, 0, name, name_len) != TRACESMB_OK) place.writer = NULL;
    return place;
}

static inline void tracesmb_slice_end(const struct tracesmb_place *place) {
    if (place->writer) (void)tracesmb_event_on(place->writer, TRACESMB_END, place->track, 0, "", 0);
}

#define TRACESMB_EVENT_(kind, track, value, name) \
    (tracesmb_here.writer ? (void)tracesmb_event_on(tracesmb_here.writer, (kind), (track), (value), "" name, sizeof(name) - 1) : (void)0)
#define TRACESMB_BEGIN_SLICE(name) TRACESMB_EVENT_(TRACESMB_BEGIN, tracesmb_here.track, 0, name)
#define TRACESMB_END_SLICE() TRACESMB_EVENT_(TRACESMB_END, tracesmb_here.track, 0, "")
#define TRACESMB_INSTANT_EVENT(name) TRACESMB_EVENT_(TRACESMB_INSTANT, tracesmb_here.track, 0, name)
#define TRACESMB_COUNT(track, value) TRACESMB_EVENT_(TRACESMB_COUNTER, (track), (uint64_t)(value), "")

#define TRACESMB_JOINED_(a, b) a##b
#define TRACESMB_JOINED(a, b) TRACESMB_JOINED_(a, b)

#ifdef __cplusplus
struct tracesmb_slice {
    struct tracesmb_place place;
    template <size_t N> explicit tracesmb_slice(const char (&name)[N]) : place(tracesmb_slice_begin(name, N - 1)) {}
    ~tracesmb_slice() { tracesmb_slice_end(&place); }
    tracesmb_slice(const tracesmb_slice &) = delete;
    tracesmb_slice &operator=(const tracesmb_slice &) = delete;
};
#define TRACESMB_SLICE(name) tracesmb_slice TRACESMB_JOINED(tracesmb_slice_, __COUNTER__)("" name)
#else
#define TRACESMB_SLICE(name) \
    __attribute__((cleanup(tracesmb_slice_end), unused)) const struct tracesmb_place TRACESMB_JOINED(tracesmb_slice_, __COUNTER__) = \
        tracesmb_slice_begin("" name, sizeof(name) - 1)
#endif

#endif
