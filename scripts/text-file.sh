# How ./run reads a text file: a line a message, in hexadecimal or by name (./run --help). The script that reads this has set `file`, the name that
# messages show, `most_entries` and `most_bytes`. Answers are left in variables: a subshell for each line would take seconds, and so would
# `%%` and `#` on a line of a megabyte; a match does not.

# Says what is wrong with the line at hand, and ends. A word can be as long as the file, so not all of it is shown.
wrong() {
  local reason="$*"
  [ "${#reason}" -le 200 ] || reason="${reason:0:200} ..."
  fail "$file, line $number: $reason"
}

# Sets `digits` to a word's hexadecimal digits. A dot has whole bytes on both sides, since 0A.0.7 could be read in two ways.
read_digits() {
  [[ "$1" != *[!0-9A-Fa-f.]* ]] || wrong "\"$1\" has something other than hexadecimal digits"
  if [[ "$1" == *.* ]]; then
    local shape=".${1//[0-9A-Fa-f][0-9A-Fa-f]/x}."
    [[ "$shape" != *[!x.]* && "$shape" != *..* ]] || wrong "\"$1\" has a dot that is not between two bytes of two digits each"
  fi
  digits="${1//./}"
  digits="${digits^^}"
}

# Sets `digits` to those of one field: the word, what it is, and how many bytes that has.
read_field() {
  read_digits "$1"
  [ "${#digits}" -eq $((2 * $3)) ] || wrong "\"$1\" is no $2 of $3 bytes"
}

# Sets `fields` for a message that is written by name: the name, the node, and what follows. Document 01, "Messages", has the MTIs.
read_named() {
  local name="${1,,}" third="${3-}" mti node
  [ "${third,,}" != range ] || name+=" range"
  case "$name $#" in
    'announce 3') mti=04C4 ;;
    'announce range 4') mti=04A4 ;;
    'produces 3') mti=0544 ;;
    'produces range 4') mti=0524 ;;
    'report 3') mti=05B4 ;;
    'restart 2') mti=0100 ;;
    announce\ * | produces\ *) wrong "it is written as: ${1,,} NODE EVENT, or ${1,,} NODE range NUMBER" ;;
    report\ *) wrong "it is written as: report NODE EVENT" ;;
    restart\ *) wrong "it is written as: restart NODE" ;;
    *) wrong "\"$1\" is neither hexadecimal nor the name of a message: announce, produces, report, restart" ;;
  esac
  read_field "$2" "Node ID" 6
  node="$digits"
  case "$mti" in
    0100) ;; # its content is the node once more
    04A4 | 0524) read_field "$4" "range number" 8 ;;
    *) read_field "$3" "Event ID" 8 ;;
  esac
  fields="$mti $node $digits"
}

# Sets `fields` to a message's bytes in hexadecimal, with the blanks between them as they are written.
read_message() {
  local word
  fields=''
  if [[ "${1-}" == *[!0-9A-Fa-f.]* ]]; then
    read_named "$@"
    return
  fi
  for word in "$@"; do
    read_digits "$word"
    fields+="${fields:+ }$digits"
  done
}

# Reads a text file. Sets `trial` to its messages as a trial file, in hexadecimal, and `in_hex` to the lines of the same text with each message in hexadecimal.
read_text_file() {
  local LC_ALL=C IFS=$' \t\r' number=0 count=0 table='' bodies='' line message comment port words digits fields body entry
  in_hex=()
  while IFS= read -r line || [ -n "$line" ]; do
    number=$((number + 1))
    # Windows puts this mark before UTF-8 text
    [[ "$number" -gt 1 || "$line" != $'\xEF\xBB\xBF'* ]] || line="${line:3}"
    [[ "$line" != *$'\r' ]] || line="${line:0:-1}"
    [[ "$line" =~ ^[^#]* ]]
    message="${BASH_REMATCH[0]}"
    comment="${line:${#message}}"
    if [[ "$message" != *[!$IFS]* ]]; then
      in_hex+=("$line")
      continue
    fi
    [[ "$message" =~ ^([^:]*):(.*)$ ]] || wrong "no colon after the port"
    read -r port <<<"${BASH_REMATCH[1]}"
    read -ra words <<<"${BASH_REMATCH[2]}"
    [[ "$port" =~ ^[0-9]{1,3}$ ]] && [ "$((10#$port))" -le 255 ] || wrong "\"$port\" is no port, a number from 0 to 255"
    read_message "${words[@]}"
    body="${fields// /}"
    [ $((${#body} % 2)) -eq 0 ] || wrong "the message has half a byte (${#body} hexadecimal digits)"
    [ "${#body}" -le 131070 ] || wrong "the message is longer than 65,535 bytes"
    count=$((count + 1))
    [ "$count" -le "$most_entries" ] || wrong "more than $most_entries messages"
    printf -v entry '%02X%04X' "$((10#$port))" "$((${#body} / 2))"
    table+="$entry"
    bodies+="$body"
    in_hex+=("$((10#$port)):${fields:+ $fields}${comment:+ $comment}")
  done <"$1"
  [ "$count" -gt 0 ] || fail "$file: there is no message in it"
  printf -v trial '%04X%s%s' "$count" "$table" "$bodies"
  [ $((${#trial} / 2)) -le "$most_bytes" ] || fail "$file: the trial file would have $((${#trial} / 2)) bytes, more than $most_bytes"
}
