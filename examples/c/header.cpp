// The headers as C++17: each call once, and a slice.
#include "tracesmb_events.h"

#include <cstdio>

TRACESMB_DEFINE_HERE;

static bool is(uint32_t answer, uint32_t wanted, const char *what) {
    if (answer == wanted) return true;
    std::fprintf(stderr, "%s: answer %u, wanted %u\n", what, unsigned(answer), unsigned(wanted));
    return false;
}

int main() {
    tracesmb_setup setup = {2, 1, 2, 4096, 2, 64, TRACESMB_DISCARD};
    tracesmb_session session = TRACESMB_EMPTY;
    tracesmb_writer writer = TRACESMB_EMPTY, other = TRACESMB_EMPTY;
    tracesmb_losses losses[2];
    uint8_t room[64];
    size_t given = 0, bytes = 0;
    uint64_t taken = 0;
    const uint8_t name[] = {'a', 'b', 'c'};
    bool all = true;
    int counted = 0;

    // what each call answers where it isn't possible
    all &= is(tracesmb_session_lend(&session, 1, &writer), TRACESMB_BAD_HANDLE, "lend of none");
    all &= is(tracesmb_session_collect(&session, 1, false, &taken), TRACESMB_BAD_HANDLE, "collect of none");
    all &= is(tracesmb_session_read(&session, room, sizeof room, &given), TRACESMB_BAD_HANDLE, "read of none");
    all &= is(tracesmb_session_stop(&session), TRACESMB_BAD_HANDLE, "stop of none");
    all &= is(tracesmb_session_close(&session, losses, 2), TRACESMB_BAD_HANDLE, "close of none");
    all &= is(tracesmb_session_take_back(&session, &writer), TRACESMB_BAD_HANDLE, "take back of none");
    all &= is(tracesmb_writer_begin(&writer), TRACESMB_BAD_HANDLE, "begin of none");
    all &= is(tracesmb_writer_varint(&writer, 1, 1), TRACESMB_BAD_HANDLE, "varint of none");
    all &= is(tracesmb_writer_bytes(&writer, 1, name, 3), TRACESMB_BAD_HANDLE, "bytes of none");
    all &= is(tracesmb_writer_begin_nested(&writer, 1), TRACESMB_BAD_HANDLE, "nested of none");
    all &= is(tracesmb_writer_end_nested(&writer), TRACESMB_BAD_HANDLE, "end of none");
    all &= is(tracesmb_writer_finish(&writer), TRACESMB_BAD_HANDLE, "finish of none");
    all &= is(tracesmb_writer_flush(&writer), TRACESMB_BAD_HANDLE, "flush of none");
    all &= is(tracesmb_writer_event(&writer, TRACESMB_BEGIN, 1, 1, 0, name, 3), TRACESMB_BAD_HANDLE, "event of none");
    setup.page_size = 4095;
    all &= is(tracesmb_session_create(&session, &setup), TRACESMB_BAD_NUMBER, "create of a bad page");
    setup.page_size = 4096;
    all &= is(tracesmb_session_create(&session, &setup), TRACESMB_OK, "create");
    all &= is(tracesmb_session_create(&session, &setup), TRACESMB_BAD_HANDLE, "create again");
    all &= is(tracesmb_session_lend(&session, 3, &writer), TRACESMB_BAD_NUMBER, "lend 3");
    all &= is(tracesmb_session_lend(&session, 1, &writer), TRACESMB_OK, "lend 1");
    all &= is(tracesmb_session_lend(&session, 1, &other), TRACESMB_BUSY, "lend 1 again");
    all &= is(tracesmb_session_lend(&session, 2, &writer), TRACESMB_BAD_HANDLE, "lend into a full handle");
    all &= is(tracesmb_writer_finish(&writer), TRACESMB_WRONG_STATE, "finish outside");
    all &= is(tracesmb_writer_varint(&writer, 1, 1), TRACESMB_WRONG_STATE, "varint outside");
    all &= is(tracesmb_writer_begin(&writer), TRACESMB_OK, "begin");
    all &= is(tracesmb_writer_begin(&writer), TRACESMB_WRONG_STATE, "begin inside");
    all &= is(tracesmb_writer_varint(&writer, 0, 1), TRACESMB_BAD_NUMBER, "field 0");
    all &= is(tracesmb_writer_varint(&writer, 10, 1), TRACESMB_REFUSED, "a field of the service's own");
    all &= is(tracesmb_writer_varint(&writer, 8, 77), TRACESMB_OK, "varint");
    all &= is(tracesmb_writer_end_nested(&writer), TRACESMB_WRONG_STATE, "end outside");
    all &= is(tracesmb_writer_begin_nested(&writer, 900), TRACESMB_OK, "nested");
    all &= is(tracesmb_writer_bytes(&writer, 1, name, 3), TRACESMB_OK, "bytes");
    all &= is(tracesmb_writer_finish(&writer), TRACESMB_WRONG_STATE, "finish inside a message");
    all &= is(tracesmb_session_take_back(&session, &writer), TRACESMB_WRONG_STATE, "take back inside a packet");
    all &= is(tracesmb_session_stop(&session), TRACESMB_BUSY, "stop while one is lent");
    all &= is(tracesmb_session_close(&session, losses, 2), TRACESMB_WRONG_STATE, "close before the stop");
    all &= is(tracesmb_writer_end_nested(&writer), TRACESMB_OK, "end");
    all &= is(tracesmb_writer_finish(&writer), TRACESMB_OK, "finish");
    all &= is(tracesmb_writer_event(&writer, 5, 1, 1, 0, name, 3), TRACESMB_BAD_NUMBER, "event of no kind");
    tracesmb_trace_on(&writer, 1);
    {
        TRACESMB_SLICE("slice"); TRACESMB_SLICE("within");
        TRACESMB_COUNT(2, ++counted);
    }
    tracesmb_trace_on(nullptr, 0);
    TRACESMB_COUNT(2, ++counted); // this thread traces nothing, so it isn't evaluated
    all &= counted == 1;
    all &= is(tracesmb_writer_flush(&writer), TRACESMB_OK, "flush");
    all &= is(tracesmb_session_collect(&session, 2, false, &taken), TRACESMB_BAD_NUMBER, "collect 2");
    all &= is(tracesmb_session_collect(&session, 1, true, &taken), TRACESMB_OK, "collect");
    all &= taken == 1;
    all &= is(tracesmb_session_take_back(&session, &writer), TRACESMB_OK, "take back");
    all &= is(tracesmb_session_lend(&session, 1, &writer), TRACESMB_OK, "lend 1 once more");
    all &= is(tracesmb_session_take_back(&session, &writer), TRACESMB_OK, "take back once more");
    all &= is(tracesmb_session_stop(&session), TRACESMB_OK, "stop");
    all &= is(tracesmb_session_stop(&session), TRACESMB_WRONG_STATE, "stop again");
    all &= is(tracesmb_session_lend(&session, 1, &writer), TRACESMB_WRONG_STATE, "lend after the stop");
    all &= is(tracesmb_session_collect(&session, 1, false, &taken), TRACESMB_WRONG_STATE, "collect after the stop");
    all &= is(tracesmb_session_read(&session, room, 1, &given), TRACESMB_OK, "read a byte");
    bytes += given;
    all &= is(tracesmb_session_close(&session, losses, 2), TRACESMB_BUSY, "close with bytes left");
    do {
        all &= is(tracesmb_session_read(&session, room, sizeof room, &given), TRACESMB_OK, "read");
        bytes += given;
    } while (given > 0);
    all &= is(tracesmb_session_close(&session, losses, 1), TRACESMB_BAD_NUMBER, "close with too little room");
    all &= is(tracesmb_session_close(&session, losses, 2), TRACESMB_OK, "close");
    all &= losses[0].begun == 6 && losses[0].delivered == 6 && losses[1].begun == 0 && bytes > 0;
    std::printf("%s\n", all ? "all as said" : "not as said");
    return all ? 0 : 1;
}
