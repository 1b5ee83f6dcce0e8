# What ./run and ./judge share. The script that reads this has set `here`, the repository, and `me`, its own name.
. "$here/scripts/progress.sh"

fail() {
  echo "$me: $*" >&2
  exit 1
}

# Has rt prove and build, unless that was done for these very sources: what is asked for, the log's name below target/, `run` for programs or `lib` for the archive,
# and the crates. What rt builds stands in the crates' out/ and is put together below target/: programs in bin/, the archive in staticlib/.
make_sure() {
  local what="$1" log="target/$2" kind="$3"
  shift 3
  command -v rt >/dev/null || fail "there is no rt on the PATH: the Rattle kit is needed (README.md, \"What is needed\")"
  mkdir -p "$(dirname "$here/$log")" "$here/target/bin" "$here/target/staticlib"
  if ! build_each "$kind" "$@" 2>&1 | tee "$here/$log" | show_progress "$what" "$@"; then
    tail -n 5 "$here/$log" >&2
    fail "that failed: $log has what rt said"
  fi
}

# A copy, unless it is there already: what links with the archive is built anew only where the archive changed.
put_in() {
  cmp -s "$1" "$2" || cp "$1" "$2"
}

# rt builds a program when it runs it; on an empty input each ends at once, and what it prints is not wanted.
build_each() {
  local kind="$1" crate
  shift
  for crate in "$@"; do
    if [ "$kind" = lib ]; then
      (cd "$here/crates/$crate" && rt lib) || return 1
      put_in "$here/crates/$crate/out/lib$crate.a" "$here/target/staticlib/lib$crate.a" || return 1
    else
      (cd "$here/crates/$crate" && rt run) </dev/null >/dev/null || return 1
      put_in "$here/crates/$crate/out/$crate" "$here/target/bin/$crate" || return 1
    fi
  done
}

# Sets `starter`, the words before a program's path. Programs are built for x86-64; elsewhere the kit's own emulator runs them.
find_starter() {
  starter=()
  [ "$(uname -m)" != x86_64 ] || return 0
  local kit
  kit="$(cd "$(dirname "$(readlink -f "$(command -v rt)")")/.." && pwd)"
  local emulator="$kit/on/$(uname -m)/toolchain/bin/qemu-x86_64"
  [ -x "$emulator" ] || fail "programs are for x86-64, and the kit has no emulator for $(uname -m)"
  starter=("$emulator" "$kit/toolchain/lib/ld-linux-x86-64.so.2" --library-path "$kit/toolchain/lib")
}

# Runs a program, the words given. Where its output is not whole it says so on standard error and ends with 0; that becomes status 1 here.
run_whole() {
  local said status=0
  { : 3>&1; } 2>/dev/null || fail "standard output is closed"
  { said="$("$@" 2>&1 >&3 3>&-)" || status=$?; } 3>&1
  [ -n "$said" ] || return "$status"
  echo "$said" >&2
  return 1
}
