# What ./run and ./judge say while rt proves: which crates are at work, and how many are to go.

# Sets `left` to the crates named and all that they stand on, and `stands_on` to what each crate names itself. crates.txt has the lowest layer first.
list_crates() {
  local needed=" $* " crate others place
  local -a listed=()
  while IFS=':' read -r crate others; do
    crate="${crate%% *}"
    [[ -n "$crate" && "$crate" != '#'* ]] || continue
    listed+=("$crate")
    stands_on[$crate]=" $others "
  done <"$here/crates.txt"
  left=' '
  for ((place = ${#listed[@]} - 1; place >= 0; place--)); do
    crate="${listed[place]}"
    [[ "$needed" == *" $crate "* ]] || continue
    needed+="${stands_on[$crate]}"
    left=" $crate$left"
  done
}

# Takes a crate and all that it stands on from `left`.
take_off() {
  local other
  [[ "$left" == *" $1 "* ]] || return 0
  left="${left/" $1 "/ }"
  for other in ${stands_on[$1]}; do take_off "$other"; done
}

# Reads what rt prints: what is asked for, and the crates named. rt names a crate when it begins to prove it, so five seconds with one crate mean work.
show_progress() {
  local what="$1" line status left other said='' at_work='' since words
  local -A stands_on=()
  shift
  list_crates "$@"
  since="$SECONDS"
  while true; do
    status=0
    IFS= read -r -t 5 line || status=$?
    if [[ "$status" -eq 0 && "$line" =~ ^rt:\ chose\ .*\ for\ ([a-z0-9_]+)$ && "${BASH_REMATCH[1]}" != "$at_work" ]]; then
      [ -z "$at_work" ] || take_off "$at_work"
      at_work="${BASH_REMATCH[1]}"
      for other in ${stands_on[$at_work]-}; do take_off "$other"; done
      since="$SECONDS"
    elif [[ "$status" -ne 0 && "$status" -le 128 ]]; then
      return 0
    fi
    [ -n "$at_work" ] && [ "$at_work" != "$said" ] && [ $((SECONDS - since)) -ge 5 ] || continue
    [ -n "$said" ] || echo "$me: making sure that $what proved and built (some minutes the first time) ..." >&2
    said="$at_work"
    read -ra words <<<"$left"
    echo "$me: proving $at_work; crates to go: ${#words[@]}" >&2
  done
}
