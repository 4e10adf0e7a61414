/* The two events as LTTng-UST declares them. */
#undef LTTNG_UST_TRACEPOINT_PROVIDER
#define LTTNG_UST_TRACEPOINT_PROVIDER slices
#undef LTTNG_UST_TRACEPOINT_INCLUDE
#define LTTNG_UST_TRACEPOINT_INCLUDE "./slices_points.h"
#if !defined(SLICES_POINTS_H) || defined(LTTNG_UST_TRACEPOINT_HEADER_MULTI_READ)
#define SLICES_POINTS_H
#include <lttng/tracepoint.h>
LTTNG_UST_TRACEPOINT_EVENT(slices, begins, LTTNG_UST_TP_ARGS(unsigned, track, const char *, name),
    LTTNG_UST_TP_FIELDS(lttng_ust_field_integer(unsigned, track, track) lttng_ust_field_string(name, name)))
LTTNG_UST_TRACEPOINT_EVENT(slices, ends, LTTNG_UST_TP_ARGS(unsigned, track), LTTNG_UST_TP_FIELDS(lttng_ust_field_integer(unsigned, track, track)))
#endif
#include <lttng/tracepoint-event.h>
