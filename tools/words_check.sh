#!/usr/bin/env bash
# Compares the commands, options and statuses that `bin/stepmill --help`, the man page, the completion and docs/USE.md name, and
# asks of README that it names no other command. It reads these files alone, and needs no program.
#
# The last line is 'N passed, M failed'; the status is 1 where one failed.
set -u
unset CDPATH
cd "$(dirname "$0")/.." || exit 1
export LC_ALL=C
help=$(sed -n "/^  cat << 'END'/,/^END/p" bin/stepmill)
manual=$(sed 's/\\fB//g; s/\\fI//g; s/\\fR//g; s/\\-/-/g' man/stepmill.1)
passed=0
failed=0

same() {
  if [ "$2" == "$3" ] && [ -n "$2" ]; then
    passed=$((passed + 1))
  else
    failed=$((failed + 1))
    printf 'FAILED: %s\n-- --help:\n%s\n-- there:\n%s\n' "$1" "$2" "$3"
  fi
}

commands=$(sed -n 's/^  stepmill \(-*[a-z]*\).*/\1/p' <<< "$help" | sort)
same 'commands of the man page' "$commands" "$(sed -n '/^\.SH SYNOPSIS/,/^\.fi/p' <<< "$manual" | sed 's/ | /\nstepmill /g' | sed -n 's/^stepmill \(-*[a-z]*\).*/\1/p' | sort)"
same 'commands that the man page explains' "$commands" "$(sed -n '/^\.SH COMMANDS/,/^\.SH OPTIONS/s/^\.B \(-*[a-z]*\)$/\1/p' <<< "$manual" | grep -vx 'report\|yes' | cat - <(echo report) | sort)"
same 'commands of the completion' "$commands" "$(sed -n "s/.*compgen -W '\(compile [^']*\)'.*/\1/p" completion/stepmill | tr ' ' '\n' | sort)"
same 'commands of docs/USE.md' "$(grep -v '^--' <<< "$commands")" "$(sed -n 's/^| `stepmill \([a-z]*\)[ `].*/\1/p' docs/USE.md | sort -u)"

options=$(sed -n 's/^  \(--[a-z]*\) [A-Z].*/\1/p' <<< "$help" | sort)
same 'options of the man page' "$options" "$(sed -n 's/^\.BI \(--[a-z]*\) .*/\1/p' <<< "$manual" | sort)"
same 'options of the completion' "$options" "$(sed -n "s/.*compgen -W '\(--cell [^']*\)'.*/\1/p" completion/stepmill | tr ' ' '\n' | sort)"
same 'options of docs/USE.md' "$options" "$(sed -n 's/^| `\(--[a-z]*\) .*/\1/p' docs/USE.md | sort)"

statuses=$(sed -n '/^Status:/,/^$/p' <<< "$help" | tr '\n' ' ' | grep -oE '(^|[ :,;])[0-9]+ [a-z]' | grep -oE '[0-9]+' | sort -n)
same 'statuses of the man page' "$statuses" "$(sed -n '/^\.SH EXIT STATUS/,/^\.SH ENV/s/^\.B \([0-9]*\)$/\1/p' <<< "$manual" | sort -n)"
same 'statuses of docs/USE.md' "$(grep -vx '6\|125' <<< "$statuses")" "$(awk -F ' [|] ' '/^[|] (none|`stepmill: )/ { print $2 }' docs/USE.md | sort -nu)"

unknown=$(grep -ohE 'bin/stepmill [a-z-]+' README.md | sed 's/.* //' | sort -u | grep -vxF -e "$commands")
same 'commands of README' 'all known' "${unknown:-all known}"

echo "$passed passed, $failed failed"
[ "$failed" -eq 0 ]
