# How ./run tells a text file from a trial file, and why a trial file is bad (document 01, "Trial program"). The script that reads this has set
# `most_text`, `most_entries` and `most_bytes`.

# Why a file is no text; nothing where it is one. A trial file never is: it begins with the high byte of a count of at most 1,000, a control byte.
why_no_text() {
  if [ ! -s "$1" ]; then
    echo "it is empty"
  elif [ "$(wc -c <"$1")" -gt "$most_text" ]; then
    echo "it has more than $most_text bytes"
  elif [ "$(LC_ALL=C tr -d '\1-\377' <"$1" | wc -c)" -gt 0 ]; then
    echo "it has a zero byte"
  elif [ "$(LC_ALL=C tr -d '\t\n\r\40-\176\200-\377' <"$1" | wc -c)" -gt 0 ]; then
    echo "it has a control byte"
  elif command -v iconv >/dev/null && ! iconv -f UTF-8 -t UTF-8 "$1" >/dev/null 2>&1; then
    echo "it has a byte that is not UTF-8"
  fi
}

# Why the trial program says `bad file`; nothing where it does not.
why_bad() {
  local bytes count table_end total numbers place
  bytes="$(wc -c <"$1")"
  if [ "$bytes" -lt 2 ]; then
    echo "it is shorter than its count, 2 bytes"
    return
  fi
  if [ "$bytes" -gt "$most_bytes" ]; then
    echo "it has more than $most_bytes bytes"
    return
  fi
  read -r -d '' -a numbers < <(od -An -v -t u1 -N $((2 + 3 * most_entries)) "$1") || true
  count=$((256 * numbers[0] + numbers[1]))
  table_end=$((2 + 3 * count))
  if [ "$count" -gt "$most_entries" ]; then
    echo "its first two bytes count $count messages, and $most_entries are the most"
    return
  fi
  if [ "$bytes" -lt "$table_end" ]; then
    echo "its table of $count messages would end at byte $table_end, and it has $bytes bytes"
    return
  fi
  total="$table_end"
  for ((place = 2; place < table_end; place += 3)); do
    total=$((total + 256 * numbers[place + 1] + numbers[place + 2]))
  done
  [ "$total" -eq "$bytes" ] || echo "by its table it should have $total bytes, and it has $bytes"
}
