#!/usr/bin/env bash
# Runs the examples of the documents and compares what comes with what they show. An example is a block of lines between
# ```console and ```: a line '$ COMMAND' is run by the shell, and the lines up to the next one are what it has to write.
# The commands of a document run in one folder, which holds the parts one.stp and plate.stp, with bin/stepmill on the path.
#
#   tools/use_examples.sh [DOCUMENT..]
#
# The last line is 'N passed, M failed'. The status is 1 where an example failed or there was none.
set -u
cd "$(dirname "$0")/.." || exit 1
[ $# -gt 0 ] || set -- docs/USE.md docs/VERIFY.md docs/JOBS.md docs/PROGRAMS.md integrations/linuxcnc/README.md
top=$PWD
room=$(mktemp -d) || exit 1
trap 'rm -rf "$room"' EXIT
mkdir "$room/bin"
ln -s "$top/bin/stepmill" "$room/bin/stepmill"
ln -s "$top/integrations/linuxcnc/stepmill-filter" "$room/bin/stepmill-filter"
PATH=$room/bin:$PATH
passed=0
failed=0

# Runs the command of an example after one that ended with the status `last`.
check() {
  local came
  came=$( (exit "$last"); eval "$command" 2>&1 < /dev/null; echo "$?" > "$room/status")
  last=$(cat "$room/status")
  if [ "$came" == "$wanted" ]; then
    passed=$((passed + 1))
  else
    failed=$((failed + 1))
    printf 'FAILED: %s: $ %s\n-- wanted:\n%s\n-- came:\n%s\n' "$document" "$command" "$wanted" "$came"
  fi
}

for document in "$@"; do
  rm -rf "$room/work"
  mkdir "$room/work"
  cp crates/stepmill/data/one.stp crates/stepmill/data/plate.stp "$room/work/"
  last=0
  command=
  is_example=
  while IFS= read -r line <&3; do
    case "$is_example:$line" in
      ':```console') is_example=1 ;;
      '1:```' | '1:$ '*)
        if [ -n "$command" ]; then
          cd "$room/work" || exit 1
          check
          cd "$top" || exit 1
        fi
        command=
        wanted=
        if [ "$line" == '```' ]; then is_example=; else command=${line#'$ '}; fi
        ;;
      1:*) wanted=$wanted${wanted:+$'\n'}$line ;;
    esac
  done 3< "$document"
done
echo "$passed passed, $failed failed"
[ "$failed" -eq 0 ] && [ "$passed" -gt 0 ]
