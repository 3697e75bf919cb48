#!/bin/sh
# check_reports.sh FOLDER [PROGRAM]: runs `germ check` on each text of a folder and compares what it writes, and its exit status,
# with what is expected. FOLDER holds NAME.txt for each NAME and a file expected.txt, one text a line, parts by tabs:
#
#     NAME    VERDICTS    NOTE    [may range ITEM ..]
#
# VERDICTS are the lines that are to be written, joined by ' | '. Where the line names items, `range ITEM` is right too for these,
# and where a `range` is expected and named so, any verdict is: a checker with a wider range knows more. Status 1 is to come
# exactly where some verdict begins with `invalid`. It ends with 0 where nothing differs. It is no part of the gate.
folder=${1:?usage: check_reports.sh FOLDER [PROGRAM]}
program=${2:-$(dirname "$0")/../germ}
tab=$(printf '\t')
texts=0
differing=0
while IFS="$tab" read -r name wanted note allowed; do
  texts=$((texts + 1))
  written=$("$program" check < "$folder/$name.txt")
  status=$?
  verdicts=$(printf '%s' "$written" | tr '\n' '~' | sed 's/~/ | /g')
  case "$wanted" in *invalid*) wanted_status=1 ;; *) wanted_status=0 ;; esac
  if [ "$verdicts" = "$wanted" ] && [ "$status" -eq "$wanted_status" ]; then
    continue
  fi
  case "$verdicts" in
    range*) case " ${allowed#may range} " in *" ${verdicts#range } "*) continue ;; esac ;;
  esac
  case "$wanted $allowed" in "range "*"may range"*) continue ;; esac
  differing=$((differing + 1))
  echo "$name: '$verdicts' with status $status, where '$wanted' is expected ($note)"
done < "$folder/expected.txt"
echo "$texts texts, $differing differ"
[ "$differing" -eq 0 ]
