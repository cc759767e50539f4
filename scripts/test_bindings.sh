#!/usr/bin/env bash
# Tests what C, C++, Rust and Python get of the library.
#
#   scripts/test_bindings.sh           all; the random calls of C a million times, and under valgrind too
#   scripts/test_bindings.sh quick     fewer random calls, and no valgrind
#
# It tests the library in RSTAR_LIB_DIR where that is set. Otherwise it makes one by build_library.sh, in out/library. SEED is the
# seed of the random calls of C, which is 1 otherwise.
set -euo pipefail
top=$(cd "$(dirname "$0")/.." && pwd)
quick=${1:-}
work=$(mktemp -d)
trap 'rm -rf "$work"' EXIT
if [[ -z ${RSTAR_LIB_DIR:-} ]]; then
  "$top/scripts/build_library.sh"
fi
export RSTAR_LIB_DIR=${RSTAR_LIB_DIR:-$top/out/library}
RSTAR_LIB_DIR=$(cd "$RSTAR_LIB_DIR" && pwd)
calls=1000000
[[ $quick == quick ]] && calls=50000

say() { echo "== $*"; }

# The libraries show the names of the header, and no others.
check_names() {
  grep -o 'rstar_index_[a-z_]*(' "$RSTAR_LIB_DIR/rstar.h" | tr -d '(' | sort >"$work/wanted"
  nm -D --defined-only "$RSTAR_LIB_DIR/librstar.so" | awk '{print $3}' | sort | diff "$work/wanted" -
  nm -g --defined-only "$RSTAR_LIB_DIR/librstar.a" | awk 'NF == 3 {print $3}' | sort | diff "$work/wanted" -
  echo "$(wc -l <"$work/wanted") names in both libraries"
}

# The header is one of each standard since C99 and C++11.
check_header() {
  local warnings='-Wall -Wextra -Wpedantic -Wconversion -Werror -fsyntax-only' compiler
  for compiler in gcc clang; do
    command -v "$compiler" >/dev/null || continue
    # shellcheck disable=SC2086
    {
      for standard in c99 c11 c17; do
        "$compiler" -std=$standard $warnings -I"$RSTAR_LIB_DIR" "$top/bindings/c/examples/first.c"
      done
      for standard in c++11 c++14 c++17 c++20; do
        "$compiler" -x c++ -std=$standard $warnings -I"$RSTAR_LIB_DIR" "$top/bindings/c/examples/first.cpp"
      done
    }
    echo "$compiler: C99 to C17, C++11 to C++20"
  done
}

# The examples print 7 and 8: by the static library, and by the shared one through pkg-config.
check_examples() {
  local examples=$top/bindings/c/examples warnings='-Wall -Wextra -Wpedantic -Werror' flags
  flags=$(PKG_CONFIG_PATH=$RSTAR_LIB_DIR pkg-config --cflags --libs rstar)
  # shellcheck disable=SC2086
  {
    cc -std=c11 $warnings -I"$RSTAR_LIB_DIR" "$examples/first.c" "$RSTAR_LIB_DIR/librstar.a" -o "$work/first_static"
    cc -std=c11 $warnings "$examples/first.c" $flags -o "$work/first_shared"
    c++ -std=c++11 $warnings -I"$RSTAR_LIB_DIR" "$examples/first.cpp" "$RSTAR_LIB_DIR/librstar.a" -o "$work/first_cpp"
  }
  for program in first_static first_shared first_cpp; do
    LD_LIBRARY_PATH=$RSTAR_LIB_DIR "$work/$program" | sort | diff <(printf '7\n8\n') -
    echo "$program: 7 and 8"
  done
}

# compile NAME WORD..: a test of C with the scan, as $work/NAME
compile() {
  local tests=$top/bindings/c/tests
  cc -std=gnu11 -Wall -Wextra -Werror -O1 -g -I"$RSTAR_LIB_DIR" -I"$tests" "${@:2}" "$tests/${1%.*}.c" "$tests/scan.c" \
    "$RSTAR_LIB_DIR/librstar.a" -o "$work/$1"
}

check_c() {
  local wrapped=-Wl,--wrap=malloc,--wrap=realloc sanitized=-fsanitize=address,undefined
  compile lengths "$sanitized"
  compile calls "$sanitized"
  compile refused_memory "$wrapped" "$sanitized"
  "$work/lengths"
  "$work/refused_memory"
  "$work/calls" "$calls" "${SEED:-1}"
  [[ $quick == quick ]] && return
  compile lengths.plain
  compile calls.plain
  compile refused_memory.plain "$wrapped"
  check_memory lengths.plain
  check_memory refused_memory.plain
  check_memory calls.plain 20000 2
}

check_memory() {
  valgrind -q --error-exitcode=1 --leak-check=full "$work/$1" "${@:2}"
  echo "$1: valgrind finds nothing"
}

# The tests of Rust. Under valgrind all but the one that forgets an iterator.
check_rust() {
  cd "$top/bindings/rust"
  cargo test --offline --quiet
  [[ $quick == quick ]] && return
  local valgrind='valgrind -q --error-exitcode=1 --leak-check=full --show-leak-kinds=definite --errors-for-leak-kinds=definite'
  cargo test --offline --quiet --test ported --test callers --config "target.'cfg(unix)'.runner = '$valgrind'" \
    -- --skip drains
}

say names
check_names
say header
check_header
say examples
check_examples
say C
check_c
say Rust
(check_rust)
if [[ -x $top/bindings/python/run_tests.sh ]]; then
  say Python
  "$top/bindings/python/run_tests.sh" ${quick:+"$quick"}
fi
say 'all passed'
