#!/bin/sh
# Runs the program: ./qs run 1 --serial 7 < examples/hello.qs
# ./qs --prove proves and builds it first, which takes an hour and more where nothing is kept. Until then it is built and
# run without proofs, anew each time, in a folder that is gone afterwards, its disks with it.
top=$(cd "$(dirname "$0")" && pwd) || exit 1
program=$top/crates/qs/out/qs
proved=$program.proved

# One sum of all that the program is made of.
sources() {
  (cd "$top" && find crates -name out -prune -o \( -name '*.rt' -o -name '*.antt' \) -print | LC_ALL=C sort | xargs cat crates.txt | sha256sum)
}

# For .ci/run alone, which has just proved and built the program.
if [ "$1" = --proved ]; then
  sources >"$proved"
  exit
fi

if [ "$1" = --prove ]; then
  # The build ends with a first run, of an empty script.
  (cd "$top/crates/qs" && rt run -- run 1 --serial 0 </dev/null) && sources >"$proved"
  exit
fi

if [ -x "$program" ] && [ "$(cat "$proved" 2>/dev/null)" = "$(sources)" ]; then
  exec "$program" "$@"
fi

cat >&2 <<'END'
qs: not proved here yet, so this run is not of the proved program
qs: to build it without proofs takes some three minutes, each time, and each run has fresh disks, which are gone after it
qs: ./qs --prove proves and builds it, in an hour and more, and then runs begin at once and keep their disks
END
said=$(mktemp) || exit 1
trap 'rm -f "$said"' EXIT
(cd "$top/crates/qs" && rt try -- "$@") 2>"$said"
# Behind the program's own lines stand those of the trial, with its status.
sed '/^checked: /,$d' "$said" >&2
status=$(sed -n 's/^run=ended status=\([0-9]*\) .*/\1/p' "$said")
[ -n "$status" ] || cat "$said" >&2
exit "${status:-1}"
