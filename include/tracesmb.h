/*
 * The writers and the service of a trace as a C library, for C11 and C++17.
 *
 * A session has writers and one buffer. Each thread that traces has a writer of its own, which it borrows from the session and gives back; one
 * thread is the service: it collects what writers have written and reads the trace. No function takes a lock, starts a thread or waits.
 *
 * What a program owes, since nothing can test it:
 *   1. A handle is zeros (TRACESMB_EMPTY) or as this library left it: it isn't copied, and no field of it is touched.
 *   2. One call at a time has a handle. From thread to thread it goes in order: by a lock, by a thread's start or join, or by a sequentially
 *      consistent atomic. Different handles need no order among them.
 *   3. No pointer is NULL, with no bytes behind it neither. Memory that is lent to a call is valid for the given length; in the call no other
 *      thread touches it, and none of what is lent to the same call overlaps another or a handle.
 *   4. A writer goes back to the session that lent it.
 *   5. No call comes from a signal handler, or in the forked child of a program with threads, and none is left by longjmp or by a thread that
 *      is cancelled within. malloc, realloc and free are of one allocator, which aligns to sixteen bytes.
 * All else is tested, and answered by one of the results below. A call that answers anything but OK or DROPPING has done nothing, except where
 * it is said.
 */
#ifndef TRACESMB_H
#define TRACESMB_H

#include <stdbool.h>
#include <stddef.h>
#include <stdint.h>

#ifdef __cplusplus
extern "C" {
#endif

enum tracesmb_result {
    TRACESMB_OK = 0,
    TRACESMB_NO_MEMORY = 1,
    TRACESMB_BAD_HANDLE = 2,  /* the handle is empty, or full where an empty one is filled, or none that may come back */
    TRACESMB_BAD_NUMBER = 3,  /* a number is out of its range */
    TRACESMB_WRONG_STATE = 4, /* not possible where the writer or the session stands */
    TRACESMB_REFUSED = 5,     /* the field is the service's own, or the packet would be too long or too deep */
    TRACESMB_USED_UP = 6,     /* the writer has too few chunk ids left for a packet: after some 4 billion chunks */
    TRACESMB_DROPPING = 7,    /* no chunk is free: the packet is begun, and thrown away as a whole; its calls are accepted */
    TRACESMB_BUSY = 8         /* a writer is lent still, or bytes wait to be handed out */
};

enum tracesmb_full {
    TRACESMB_RING = 0,   /* a full buffer overwrites its oldest records */
    TRACESMB_DISCARD = 1 /* a full buffer discards each new record */
};

/* What a session is made for. */
struct tracesmb_setup {
    uint32_t writers;   /* 1 to 64: so many threads can trace at one time */
    uint32_t producers; /* 1 to 16: writer n takes its chunks from those of producer (n - 1) % producers + 1 */
    uint32_t pages;     /* 1 to 64: so many pages has each producer */
    uint32_t page_size; /* a multiple of 4,096 up to 65,536 */
    uint32_t chunks;    /* of a page: 1, 2, 4, 7 or 14 */
    uint32_t buffer_kb; /* 1 to 65,536; one record of a chunk has to fit */
    uint32_t full;      /* TRACESMB_RING or TRACESMB_DISCARD */
};

/* What became of the packets of a writer: begun = delivered + dropped + overwritten + discarded + cut. */
struct tracesmb_losses {
    uint64_t begun;
    uint64_t delivered;   /* they stand in the trace, where no read answered NO_MEMORY */
    uint64_t dropped;     /* no chunk was free */
    uint64_t overwritten; /* in the buffer, unread */
    uint64_t discarded;   /* by the full buffer */
    uint64_t cut;         /* they never came whole, or nobody read them */
};

typedef struct tracesmb_session { void *at; bool full; } tracesmb_session;
typedef struct tracesmb_writer { void *at; bool full; } tracesmb_writer;

#define TRACESMB_EMPTY {NULL, false}

/* ---- the session, on the thread of the service ---- */

/* Makes a session in an empty handle. BAD_NUMBER: the setup has a number that is out of its range. */
uint32_t tracesmb_session_create(tracesmb_session *session, const struct tracesmb_setup *setup);

/* Lends the writer with this number (from 1) into an empty handle. BUSY: it is lent already. WRONG_STATE: the session was stopped. */
uint32_t tracesmb_session_lend(tracesmb_session *session, uint32_t number, tracesmb_writer *writer);

/* Takes a writer back that stands between two packets, and completes its chunk. Its handle is empty then, and it may be lent again. */
uint32_t tracesmb_session_take_back(tracesmb_session *session, tracesmb_writer *writer);

/* Takes the complete chunks of a producer's writers (from 1) into the buffer; with `held` also the finished fragments of the chunks that they
 * hold. `taken` says how many chunks. */
uint32_t tracesmb_session_collect(tracesmb_session *session, uint32_t producer, bool held, uint64_t *taken);

/* Puts what comes next of the trace into the room, and says how many bytes that are: 0 where nothing more is there now. What all reads gave, one
 * behind another, is the trace. BAD_NUMBER: the room has no byte. NO_MEMORY: what this read took from the buffer and what stands there still is
 * lost; from then on each read answers so. */
uint32_t tracesmb_session_read(tracesmb_session *session, uint8_t *room, size_t room_len, size_t *given);

/* Takes all that the writers completed into the buffer, and closes their sequences. BUSY: a writer is lent still. Only reads and the close
 * come behind it. */
uint32_t tracesmb_session_stop(tracesmb_session *session);

/* Ends a stopped session of which all was read, and frees all that it had; its handle is empty then. `losses` has room for so many writers as the session has
 * (`count`). BUSY: bytes wait that no read handed out. What stands in the buffer unread counts as cut: so read until a read gives nothing. */
uint32_t tracesmb_session_close(tracesmb_session *session, struct tracesmb_losses *losses, size_t count);

/* ---- a writer, on its thread ---- */

/* Begins a packet. */
uint32_t tracesmb_writer_begin(tracesmb_writer *writer);

/* Fields of the packet. Field numbers go from 1 to 536,870,911. BAD_NUMBER: another one, or a text of more than 64 MB. REFUSED: the service's own
 * field, or a packet of more than 1 MB or 16 messages deep, which it would be with this field. One that answers OK may still find no chunk to run on
 * into: then the packet is lost, and its later calls are accepted. */
uint32_t tracesmb_writer_varint(tracesmb_writer *writer, uint32_t field, uint64_t value);
uint32_t tracesmb_writer_bytes(tracesmb_writer *writer, uint32_t field, const uint8_t *text, size_t text_len);
uint32_t tracesmb_writer_begin_nested(tracesmb_writer *writer, uint32_t field);

/* Ends the innermost message. */
uint32_t tracesmb_writer_end_nested(tracesmb_writer *writer);

/* Ends the packet, with all its messages ended. */
uint32_t tracesmb_writer_finish(tracesmb_writer *writer);

/* Completes the chunk between two packets, so that the service can take it. */
uint32_t tracesmb_writer_flush(tracesmb_writer *writer);

/* One packet by one call: an event on a track at a time. A name of no bytes is left out, and so is the value but for a counter. DROPPING: the
 * packet is dropped. REFUSED: it ends where the refused field would stand (a name of nearly a megabyte or more). */
enum tracesmb_event_kind {
    TRACESMB_BEGIN = 1,
    TRACESMB_END = 2,
    TRACESMB_INSTANT = 3,
    TRACESMB_COUNTER = 4
};
uint32_t tracesmb_writer_event(tracesmb_writer *writer, uint32_t kind, uint64_t time, uint64_t track, uint64_t value, const uint8_t *name, size_t name_len);

#ifdef __cplusplus
}
#endif

#endif
