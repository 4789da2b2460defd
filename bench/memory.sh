#!/usr/bin/env bash
# Refuses the built program one request for memory at a time, over the runs of examples/two-registers: the first alone,
# then the second alone, and so on, until a run makes fewer requests. Each run has to end with status 6, `no memory` on
# standard error and nothing on standard output, or just as the run to which nothing is refused. A C compiler makes the
# library that refuses. Build the program first: `rt ci`, or `rt run` in crates/coco_check.
# Usage: bench/memory.sh [EVERY]; with EVERY only each EVERY-th request is refused in turn. Ends with status 1 where a run differs.
set -eu
top=$(cd "$(dirname "$0")/.." && pwd)
program=$top/crates/coco_check/out/coco_check
every=${1:-1}
folder=$(mktemp -d /tmp/memory.XXXXXX)
trap 'rm -rf "$folder"' EXIT
cat > "$folder/refuse.c" <<'C'
#define _GNU_SOURCE
#include <dlfcn.h>
#include <stdlib.h>
#include <unistd.h>

static long asked;
static long refused = -1;

/* whether this request is the one that is refused; a file named by REFUSED_MARK is made then */
static int is_refused(void) {
  if (refused < 0) {
    const char *word = getenv("REFUSED_REQUEST");
    refused = word ? atol(word) : 0;
  }
  if (++asked != refused) return 0;
  const char *mark = getenv("REFUSED_MARK");
  if (mark) symlink("refused", mark);
  return 1;
}

void *malloc(size_t size) {
  static void *(*real)(size_t);
  if (!real) real = (void *(*)(size_t))dlsym(RTLD_NEXT, "malloc");
  return is_refused() ? NULL : real(size);
}

void *realloc(void *at, size_t size) {
  static void *(*real)(void *, size_t);
  if (!real) real = (void *(*)(void *, size_t))dlsym(RTLD_NEXT, "realloc");
  return is_refused() ? NULL : real(at, size);
}
C
"${CC:-cc}" -shared -fPIC -O1 -o "$folder/refuse.so" "$folder/refuse.c" -ldl
cd "$top/examples/two-registers"
wrong=0

# each_request NAME WORDS..: refuses each request of one call in turn
each_request() {
  local name=$1 request=1 runs=0 whole status
  shift
  whole=0
  "$program" "$@" >"$folder/whole" 2>/dev/null || whole=$?
  while true; do
    rm -f "$folder/mark"
    status=0
    REFUSED_REQUEST=$request REFUSED_MARK="$folder/mark" LD_PRELOAD="$folder/refuse.so" \
      "$program" "$@" >"$folder/out" 2>"$folder/err" || status=$?
    if ! [ -L "$folder/mark" ]; then break; fi
    runs=$((runs + 1))
    if [ "$status" = 6 ] && ! [ -s "$folder/out" ] && [ "$(cat "$folder/err")" = "no memory" ]; then :
    elif [ "$status" = "$whole" ] && cmp -s "$folder/whole" "$folder/out"; then :
    else
      echo "wrong: $name: request $request refused: status $status, '$(head -n 1 "$folder/out")', '$(cat "$folder/err")'"
      wrong=1
    fi
    request=$((request + every))
  done
  echo "$name: $runs requests refused in turn"
}

each_request rejected --netlist rejected.json --labels rejected.txt
each_request accepted --netlist accepted.json --labels accepted.txt --proof
exit $wrong
