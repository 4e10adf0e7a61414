/* The shortest program that traces: one thread, one slice. */
#include "tracesmb_events.h"
#include <stdio.h>

TRACESMB_DEFINE_HERE;

int main(void) {
    struct tracesmb_setup setup = {.writers = 1, .producers = 1, .pages = 4, .page_size = 4096, .chunks = 4, .buffer_kb = 64, .full = TRACESMB_RING};
    tracesmb_session session = TRACESMB_EMPTY;
    tracesmb_writer writer = TRACESMB_EMPTY;
    struct tracesmb_losses losses;
    uint8_t room[4096];
    size_t given;
    if (tracesmb_session_create(&session, &setup) != TRACESMB_OK || tracesmb_session_lend(&session, 1, &writer) != TRACESMB_OK) return 1;
    tracesmb_trace_on(&writer, 1);
    {
        TRACESMB_SLICE("hello");
    }
    tracesmb_trace_on(NULL, 0);
    if (tracesmb_session_take_back(&session, &writer) != TRACESMB_OK || tracesmb_session_stop(&session) != TRACESMB_OK) return 1;
    while (tracesmb_session_read(&session, room, sizeof room, &given) == TRACESMB_OK && given > 0) fwrite(room, 1, given, stdout);
    return tracesmb_session_close(&session, &losses, 1) != TRACESMB_OK;
}
