#!/usr/bin/env bash
# Refuses each allocation in turn, one a run, by a shim before the C library's allocations:
#
# - of the tests that expect refusals, which stand in the tables below, those between two marks, which are lists of a size that
#   nothing else asks for: each test passes whatever is refused, and meets as many refusals as its table says;
# - of the program over examples/levels.txt, all of them: the answers so far, then `error: memory` and status 3; and of a
#   hundred points that are packed and unpacked: `error: memory` alone, and status 3.
#
# Both are built first, as proved. The last line has the figures.
set -euo pipefail
top=$(cd "$(dirname "$0")/.." && pwd)
work=$(mktemp -d)
trap 'rm -rf "$work"' EXIT
cat >"$work/refuse.c" <<'C'
#define _GNU_SOURCE
#include <dlfcn.h>
#include <errno.h>
#include <fcntl.h>
#include <stdlib.h>
#include <unistd.h>
/* REFUSE is the number of the allocation to refuse; with MARK those after a list of so many bytes count, up to the next. */
static long left = -1, mark, counts;
static int refused(size_t n) {
  if (left < 0) {
    const char *number = getenv("REFUSE"), *marked = getenv("MARK");
    left = number ? atol(number) : 0;
    mark = marked ? atol(marked) : 0;
    counts = !mark;
  }
  if (mark && n == (size_t)mark) {
    counts = !counts;
    return 0;
  }
  if (!counts || left == 0 || --left > 0) return 0;
  const char *said = getenv("SAID");
  if (said) close(open(said, O_CREAT | O_WRONLY, 0600));
  return 1;
}
#define NEXT(name) static typeof(&name) next; if (!next) next = dlsym(RTLD_NEXT, #name)
void *malloc(size_t n) { NEXT(malloc); return refused(n) ? 0 : next(n); }
void *realloc(void *p, size_t n) { NEXT(realloc); return refused(n) ? 0 : next(p, n); }
void *aligned_alloc(size_t a, size_t n) { NEXT(aligned_alloc); return refused(n) ? 0 : next(a, n); }
int posix_memalign(void **p, size_t a, size_t n) { NEXT(posix_memalign); return refused(n) ? ENOMEM : next(p, a, n); }
C
cc -O2 -shared -fPIC -o "$work/refuse.so" "$work/refuse.c" -ldl

# Runs a command with its n-th allocation refused; tells by $work/said whether one was.
refuse() {
  rm -f "$work/said"
  SAID=$work/said REFUSE=$1 LD_PRELOAD=$work/refuse.so "${@:2}"
}

calls=0
refusals=0
# How many allocations each test asks for between its marks, or more: fewer would say that a call which was refused is refused no
# more. Of 28 points no query, join or pop takes memory; of forty that lie deep each takes some.
declare -A least=(
  [refusals::an_iterator_is_refused_once]=3
  [refusals::calls_that_are_refused]=100
  [refusals::insertions_and_loads_that_are_refused]=263
  [tests::commands::rows_of_commands]=122
  [tests::lines::a_refused_line_is_the_last]=26
)
# How many it asks for, and no more: a tree is written by one, and read by one for each of its three parents; nine elements in
# three slabs take two lists, and three in one slab none; and of pushes on a heap the first twelve take none, and one of the others.
declare -A just=(
  [refusals::stored_trees_that_are_refused]=4
  [slabs::a_refused_slab_ends_the_slabs]=2
  [heaps::the_greatest_leaves_first]=1
)
# Runs those tests of a crate whose names fit a pattern, one at least, until no allocation between two marks is left to refuse.
try_tests() {
  cd "$top/crates/$1"
  rt test >"$work/tests" 2>&1 || { cat "$work/tests" >&2; exit 1; }
  local name names n met wanted
  names=$("out/$1_tests" --list | sed -n "s/^\($2\): test$/\1/p")
  [[ $names ]] || { echo "no test of $1 is named $2" >&2; exit 1; }
  for name in $names; do
    for ((n = 1; ; n++)); do
      if ! MARK=10007 refuse "$n" "out/$1_tests" "$name" >"$work/told" 2>&1; then
        echo "$name: allocation $n" >&2
        cat "$work/told" >&2
        exit 1
      fi
      calls=$((calls + 1))
      [[ -e $work/said ]] || break
      refusals=$((refusals + 1))
    done
    met=$((n - 1))
    wanted=${just[$name]:-${least[$name]:-}}
    if [[ -z $wanted ]] || ((met < wanted)) || [[ -n ${just[$name]:-} && $met != "$wanted" ]]; then
      echo "$name: $met allocations in the place of ${wanted:-a number that a table says}" >&2
      exit 1
    fi
  done
}
try_tests rstar_base_vectors 'slabs::a_refused_slab_ends_the_slabs'
try_tests rstar_base_vectors 'heaps::the_greatest_leaves_first'
try_tests rstar_vectors 'refusals::[a-z_]*'
try_tests rstar_run 'tests::commands::rows_of_commands'
try_tests rstar_run 'tests::lines::a_refused_line_is_the_last'

cd "$top/crates/rstar_run"
runs=0
denied=0
# Runs the program over a file, by the words that follow, with each allocation refused in turn.
try_program() {
  local input=$1 n status lines
  shift
  out/rstar_run "$@" <"$input" >"$work/whole"
  for ((n = 1; n <= 10000; n++)); do
    status=0
    refuse "$n" out/rstar_run "$@" <"$input" >"$work/told" || status=$?
    runs=$((runs + 1))
    [[ -e $work/said ]] && denied=$((denied + 1))
    if [[ $status == 0 ]] && cmp -s "$work/told" "$work/whole"; then
      [[ -e $work/said ]] || return 0
      # The list of the program's words, for which std asks once more where it was refused.
      continue
    fi
    # The answers to some lines, and the end; of a tree that is packed or unpacked the end alone.
    lines=$(($(wc -l <"$work/told") - 1))
    { head -n "$lines" "$work/whole" && echo 'error: memory'; } >"$work/want"
    if [[ $status != 3 ]] || ! cmp -s "$work/told" "$work/want"; then
      echo "the program $*: allocation $n: status $status" >&2
      exit 1
    fi
  done
  echo 'more allocations than runs' >&2
  exit 1
}
rt run <"$top/examples/levels.txt" >/dev/null 2>&1
try_program "$top/examples/levels.txt"
for ((k = 0; k < 101; k++)); do echo "$k $((37 * k % 101))"; done >"$work/points"
out/rstar_run pack <"$work/points" >"$work/packed"
try_program "$work/points" pack
try_program "$work/packed" unpack
echo "tests: $calls runs, $refusals refusals; the program: $runs runs, $denied refusals; all as they should be"
