#!/bin/sh
# Are the stored stdin and stdout of each case program what cases.py and answer.py write? Exits 1 if not.
# Looks at the programs relay and NAME_cases that crates.txt lists (a line `NAME: DEPS`), then runs selftest.py.
here=$(cd "$(dirname "$0")" && pwd) || exit 1
root=$here/..
export PYTHONDONTWRITEBYTECODE=1
work=$(mktemp -d) || exit 1
trap 'rm -rf "$work"' EXIT
failed=0

[ -f "$root/crates.txt" ] || { echo "no crates.txt"; exit 1; }
listed=$(sed -n -e 's/^\([A-Za-z0-9_]*_cases\):.*/\1/p' -e 's/^\(relay\):.*/\1/p' "$root/crates.txt")

for name in $listed; do
  folder=$root/crates/$name
  if ! { python3 "$here/cases.py" "$name" >"$work/stdin" && cmp "$work/stdin" "$folder/stdin"; }; then
    echo "$name: stdin is not what cases.py writes"
    failed=1
  elif ! { python3 "$here/answer.py" "$name" <"$work/stdin" >"$work/stdout" && cmp "$work/stdout" "$folder/stdout"; }; then
    echo "$name: stdout is not what answer.py writes"
    failed=1
  else
    echo "$name: stdin and stdout as written, $(wc -l <"$work/stdout" | tr -d ' ') lines"
  fi
done

for folder in "$root"/crates/*_cases; do
  name=${folder##*/}
  case " $(echo $listed) " in
    *" $name "*) ;;
    *) [ -d "$folder" ] && echo "$name: not listed in crates.txt, skipped" ;;
  esac
done

python3 "$here/selftest.py" || failed=1
exit $failed
