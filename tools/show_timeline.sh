#!/usr/bin/env bash
# Opens examples/timeline.trace in Perfetto's own trace processor, and compares the slices that it shows with examples/timeline.slices.
#   show_timeline.sh FOLDER
# FOLDER is where the trace processor is built, once (10 minutes of processor time, 130 MB), from the sources of Chromium that Debian
# packages with qt6-webengine: Debian has no package of Perfetto. It needs a `deb-src` line in apt's sources, g++, ninja, zlib1g-dev and
# libsqlite3-dev. Not part of the gate.
set -euo pipefail
top=$(cd "$(dirname "$0")/.." && pwd)
[ $# = 1 ] || { echo "usage: show_timeline.sh FOLDER" >&2; exit 2; }
mkdir -p "$1"
cd "$1"

build() {
  apt-get -q source --download-only qt6-webengine
  local inside
  inside=$(tar tf qt6-webengine_*.orig.tar.xz | sed -n '/third_party\/perfetto\/BUILD.gn$/{s/\/BUILD.gn$//p;q}' || true)
  tar xf qt6-webengine_*.orig.tar.xz --strip-components="$(tr -cd / <<< "$inside" | wc -c)" "$inside"
  # gn, protoc and their headers, unpacked here and not installed
  apt-get -q download generate-ninja libprotobuf-dev libprotoc-dev protobuf-compiler libprotobuf32 libprotoc32
  for package in *.deb; do dpkg -x "$package" root; done
  local root=$PWD/root
  local libraries=$root/usr/lib/x86_64-linux-gnu
  cd perfetto
  # the system's sqlite, since the package leaves out the one that Perfetto brings
  sed -i 's|public_deps = \[ "//buildtools:sqlite" \]|public_configs = [ ":system_sqlite" ]|' gn/BUILD.gn
  printf '\nconfig("system_sqlite") {\n  libs = [ "sqlite3" ]\n}\n' >> gn/BUILD.gn
  export PATH=$root/usr/bin:$PATH LD_LIBRARY_PATH=$libraries
  local off=(git_rev_version_header x64_cpu_opt llvm_demangle trace_processor_json trace_processor_linenoise trace_processor_httpd
    trace_processor_percentile)
  gn gen out --root-target=//src/trace_processor:trace_processor_shell --args="
    is_debug=false is_clang=false is_system_compiler=true is_hermetic_clang=false use_custom_libcxx=false
    skip_buildtools_check=true perfetto_use_system_protobuf=true perfetto_use_system_zlib=true
    enable_perfetto_platform_services=false enable_perfetto_ipc=false enable_perfetto_tools=false enable_perfetto_ui=false
    enable_perfetto_unittests=false enable_perfetto_integration_tests=false enable_perfetto_benchmarks=false
    enable_perfetto_heapprofd=false enable_perfetto_traced_perf=false
    $(printf 'perfetto_enable_%s=false ' git_rev_version_header) $(printf 'enable_perfetto_%s=false ' "${off[@]:1}")
    extra_cflags=\"-w -g0 -O1 -isystem $root/usr/include\" extra_ldflags=\"-L$libraries\""
  ninja -C out trace_processor_shell
  cd ..
}

shell=perfetto/out/trace_processor_shell
[ -x $shell ] || build

answers() {  # the rows that a query finds in the trace
  echo "$1" > query.sql
  $shell -q query.sql "$top/examples/timeline.trace" 2> messages || { cat messages >&2; exit 1; }
}
$shell --version
answers "select ts, dur, depth, slice.name as slice, thread.name as thread, process.name as process from slice
  join thread_track on slice.track_id = thread_track.id join thread using (utid) join process using (upid) order by ts" > slices
answers "select name, value from stats where value > 0
  and (severity in ('error', 'data_loss') or name like '%error%' or name like '%skipped%')" > complaints
cat slices
diff slices "$top/examples/timeline.slices" && [ "$(wc -l < complaints)" = 1 ] || { cat complaints; exit 1; }
echo "as examples/timeline.slices has them, and no packet was refused or skipped"
