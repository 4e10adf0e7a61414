#!/bin/bash
# try_library.sh: builds the C library and tries it: headers and examples with every warning an error, as C11 and as C++17; what each call
# answers; the trace of the pipeline, as `tracesmb read` and Perfetto's trace processor see it; threads that note what they write, beside other
# work, whose traces `tracesmb check` holds against their notes; all once more under valgrind and with the sanitizers; and an install with
# pkg-config, used from outside.
#
#     tools/try_library.sh [LIBRARY.a]     in place of the library of crates/tracesmb_c/out, which `rt lib` writes there
#
# RUNS is how often the threads that note run (1,000), TRACESMB the program that reads traces (./tracesmb), TRACE_PROCESSOR Perfetto's
# (trace_processor_shell, which tools/show_timeline.sh builds). Needs cc and c++; valgrind and the trace processor where they are there.
set -eo pipefail
library=${1:+$(realpath "$1")}
tracesmb=${TRACESMB:+$(realpath "$TRACESMB")}
cd "$(dirname "$0")/.."
runs=${RUNS:-1000}
processor=${TRACE_PROCESSOR:-trace_processor_shell}
tracesmb=${tracesmb:-$PWD/tracesmb}
if [ -z "$library" ]; then
    (cd crates/tracesmb_c && rt lib)
    library=$PWD/crates/tracesmb_c/out/libtracesmb_c.a
fi
work=$(mktemp -d)
busy=()
trap '[ ${#busy[@]} = 0 ] || kill "${busy[@]}"; rm -rf "$work"' EXIT
c="-std=c11 -D_POSIX_C_SOURCE=200809L -Wall -Wextra -Werror -O2 -g -Iinclude"
cpp="-std=c++17 -Wall -Wextra -Werror -O2 -g -Iinclude"

say() { echo "try_library: $*"; }

# build NAME FLAG..: the examples, with these flags besides
build() {
    local into=$work/$1
    shift
    mkdir -p "$into"
    ${CC:-cc} $c "$@" -o "$into/pipeline" examples/c/pipeline.c examples/c/heap.c "$library" -pthread
    ${CC:-cc} $c "$@" -o "$into/noted" examples/c/noted.c examples/c/heap.c "$library" -pthread
    ${CC:-cc} $c "$@" -o "$into/ten_lines" examples/c/ten_lines.c examples/c/heap.c "$library"
    ${CC:-cc} $c "$@" -c -o "$into/heap.o" examples/c/heap.c
    ${CXX:-c++} $cpp "$@" -o "$into/header" examples/c/header.cpp "$into/heap.o" "$library"
}

# check TRACE SAID: what the session counted as delivered is what the trace has, sequence by sequence, and of each there is something
check() {
    "$tracesmb" read < "$1" > "$work/read"
    local sequence=2 name counts delivered
    while IFS=: read -r name counts; do
        [ -n "$counts" ] || continue
        delivered=${counts#*delivered }
        delivered=${delivered%% *}
        if [ "$delivered" = 0 ] || ! grep -q "^sequence $sequence packets $delivered " "$work/read"; then
            echo "$name, sequence $sequence: counted $delivered delivered"
            cat "$work/read"
            exit 1
        fi
        sequence=$((sequence + 1))
    done < "$2"
    [ $sequence = 6 ] || { echo "counts of $((sequence - 2)) threads"; exit 1; }
}

# noted SEED PREFIX..: threads that note what they write; the trace agrees with their notes, in as many packets as the session counted
noted() {
    local seed=$1
    shift
    "$@" "$work/noted.trace" "$work/notes" "$seed" > "$work/said"
    { cat "$work/notes"; echo ==; cat "$work/noted.trace"; } | "$tracesmb" check > "$work/verdict"
    [ "$(cat "$work/verdict")" = "$(head -n 1 "$work/said")" ] || { echo "seed $seed: $(cat "$work/verdict" "$work/said")"; exit 1; }
}

# once FOLDER PREFIX..: each example once, by this prefix
once() {
    local from=$1
    shift
    "$@" "$from/header" > /dev/null
    "$@" "$from/ten_lines" > "$work/ten.trace"
    "$tracesmb" read < "$work/ten.trace" > /dev/null
    "$@" "$from/pipeline" "$work/trace" 300 > "$work/said"
    check "$work/trace" "$work/said"
    noted 1 "$@" "$from/noted"
}

# ask QUERY: what the trace processor finds in the pipeline's trace, without the line of names
ask() {
    echo "$1" > "$work/query.sql"
    "$processor" -q "$work/query.sql" "$work/trace" 2> "$work/messages" > "$work/found" || { cat "$work/messages"; exit 1; }
    tail -n +2 "$work/found" | tr -d '"'
}

# processed: the slices of the pipeline's four threads stand on four tracks, the reader's are as many as its lines, and no packet is left out
processed() {
    ask "select track.name from slice join track on slice.track_id = track.id group by track.name order by track.name" > "$work/tracks"
    printf '%s\n' 'first worker' printer reader 'second worker' | diff "$work/tracks" -
    ask "select name, value from stats where value > 0 and (severity in ('error', 'data_loss') or name like '%skipped%')" > "$work/faults"
    [ ! -s "$work/faults" ] || { cat "$work/faults"; exit 1; }
    if grep -q '^reader: .* dropped 0 overwritten 0 discarded 0 cut 0$' "$work/said"; then
        [ "$(ask "select count(*) from slice join track on slice.track_id = track.id where track.name = 'reader' and dur >= 0")" = 300 ]
    fi
}

build plain
"$work/plain/header" > /dev/null
once "$work/plain"
say "headers as C11 and C++17, each call, and the pipeline's trace: as said"
if command -v "$processor" > /dev/null; then
    processed
    say "the trace processor shows the pipeline's slices on four tracks"
else
    say "no $processor: the pipeline's trace wasn't opened in a Perfetto tool"
fi

for _ in $(seq $((2 * $(nproc)))); do
    yes > /dev/null &
    busy+=($!)
done
losing=0
for seed in $(seq "$runs"); do
    noted "$seed" "$work/plain/noted"
    grep -q '^lost 0$' "$work/said" || losing=$((losing + 1))
done
kill "${busy[@]}"
busy=()
[ "$losing" -lt "$runs" ] && { [ "$runs" -lt 100 ] || [ "$losing" -gt 0 ]; } || { echo "$losing of $runs runs lost packets"; exit 1; }
say "$runs runs of threads that note what they write, beside other work: each trace agrees with the notes; $losing lost packets"

# The sanitizers see the C part, and of the library the copies of bytes but not its atomics, by which chunks go from thread to thread: so
# a race of which the library is one side isn't told. What they find is between two places of the C part.
for crate in chunk_words chunk_plain trace_writer thread_writer commit_body trace_buffer ring_bytes service_core thread_service sequence_reader tracesmb_c std; do
    echo "race:^$crate"
done > "$work/suppressions"
export TSAN_OPTIONS="suppressions=$work/suppressions"
for sanitizer in address,undefined thread; do
    build san -fsanitize=$sanitizer -fno-sanitize-recover=all
    once "$work/san"
    say "-fsanitize=$sanitizer finds nothing within the C part"
done
if command -v valgrind > /dev/null; then
    once "$work/plain" valgrind -q --error-exitcode=9 --leak-check=full --errors-for-leak-kinds=all
    say "valgrind finds nothing, and no block is left"
else
    say "no valgrind: blocks that are left weren't looked for"
fi

tools/install_library.sh "$work/prefix" "$library" > /dev/null
mkdir "$work/outside"
cp examples/c/ten_lines.c "$work/outside/program.c"
(cd "$work/outside" && export PKG_CONFIG_PATH="$work/prefix/lib/pkgconfig" &&
    ${CC:-cc} -std=c11 -D_POSIX_C_SOURCE=200809L -Wall -Wextra -Werror -o program program.c $(pkg-config --cflags --libs tracesmb) && ./program > trace && "$tracesmb" read < trace > /dev/null)
say "installed, and used from outside by pkg-config"
