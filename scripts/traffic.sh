# How ./run shows meters and makes a report over files. The script that reads this has `build`, `start` and what text-file.sh and trial-file.sh have.

# Writes the messages of a text file that is read as a trial file.
put_trial() {
  printf '%b' "$(sed 's/../\\x&/g' <<<"$trial")"
}

# Prints what was put together here, or ends where that cannot be.
say() {
  printf '%s\n' "$1" 2>/dev/null || fail "the output is not whole"
}

# The meters' lines below a heading; other lines as they are.
put_heading() {
  local line leg accepted refused reports sent held mark
  while IFS= read -r line; do
    read -r leg accepted refused reports sent held mark <<<"$line"
    if [ -z "$mark" ]; then
      printf '%s\n' "$line"
      continue
    fi
    [ "$leg" != 0 ] || printf 'leg%12s%12s%12s%12s%12s%8s\n' accepted refused 'reports in' sent 'held back' marked
    [ "$mark" = 0 ] && mark=no || mark=yes
    printf '%3s%12s%12s%12s%12s%12s%8s\n' "$leg" "$accepted" "$refused" "$reports" "$sent" "$held" "$mark"
  done
}

# Writes a text file or a trial file as a trial file, or fails with the reason. It ends what runs it, so that is a subshell.
as_trial() {
  local no_text bad
  file="$1"
  take_in
  no_text="$(why_no_text "$input")"
  if [ -z "$no_text" ]; then
    read_text_file "$input"
    put_trial
    return
  fi
  bad="$(why_bad "$input")"
  [ -z "$bad" ] || fail "$file is no text file: $no_text; and no trial file: $bad"
  cat "$input"
}

# A number and what is counted, one or more of it.
counted() {
  [ "$1" -eq 1 ] && printf '%s %s' "$1" "$2" || printf '%s %s' "$1" "$3"
}

# Says in a sentence what the files given add up to. The share is the report program's; the sums beside it are of the meters program's lines.
report_files() {
  local name more to from number=0 read=0 bad=0 in=0 sent=0 held=0 share
  [ $# -le 1000 ] || fail "--report takes at most 1,000 files, and these are $#"
  build meters
  build report
  folder="$(mktemp -d)"
  trap 'rm -rf "$folder"' EXIT
  for name in "$@"; do
    number=$((number + 1))
    if (as_trial "$name") >"$folder/$number"; then
      read=$((read + 1))
      while read -r _ _ _ more to from _; do
        in=$((in + more)) sent=$((sent + to)) held=$((held + from))
      done < <(start meters <"$folder/$number")
      echo "$folder/$number" >>"$folder/list"
    else
      bad=$((bad + 1))
    fi
  done
  touch "$folder/list"
  share="$(start report <"$folder/list")"
  if [ "$share" = none ]; then
    share="there was no report to send or to hold back"
  else
    share="$((share / 10)).$((share % 10)) % held back"
  fi
  say "$(counted "$read" 'file was' 'files were') read, $(counted "$bad" was were) bad: $(counted "$in" report reports) in, $sent sent and $held held back; $share."
}
