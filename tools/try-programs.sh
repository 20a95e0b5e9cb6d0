#!/usr/bin/env bash
# Tries ./fvn and ./build on a small repository that it makes: a first answer, a build that is broken off, the proved program, links,
# changes, a proof that fails, text that is not code, no kit. It ends with 0 where each does as it should, and takes some minutes. It is
# no part of the gate.
set -uo pipefail
top=$(cd "$(dirname "${BASH_SOURCE[0]}")/.." && pwd)
room=$(mktemp -d)
trap 'rm -rf "$room"' EXIT
failed=0
mkdir -p "$room/a folder/tools" "$room/a folder/crates"
cd "$room/a folder" || exit
touch crates.txt
for crate in fvn_low fvn_mid; do rt new crates/$crate start_lib >/dev/null || exit; done
rt new crates/fvn start_io >/dev/null || exit
rm -f BUILD.bazel MODULE.bazel crates/*/BUILD.bazel
printf 'fvn_low:\nfvn_mid: fvn_low\nfvn: fvn_mid\n' >crates.txt
echo 'Handles allowed: none.' >HANDLES
cp "$top/fvn" "$top/build" .
cp "$top/tools/programs.py" "$top/tools/proving.py" tools/
low=crates/fvn_low/src/lib.rt
cp $low "$room/low"
plain=/usr/bin:/bin

# Says whether a command answers with this status, this output and a text on standard error that has these words; `-` stands for none.
seems() {
  local what=$1 status=$2 output=$3 words=$4 found given said
  shift 4
  given=$(printf 'egg 420\n' | "$@" 2>"$room/said")
  found=$?
  said=$(<"$room/said")
  if [ "$words" = - ]; then words=$said; [ -n "$said" ] && found=none; fi
  if [ "$found" = "$status" ] && [ "$given" = "$output" ] && [[ $said == *"$words"* ]]; then
    echo "well: $what"
  else
    echo "not well: $what: status $found, output '$given'; it said: $said"
    failed=1
  fi
}

seems 'no kit, nothing built' 125 '' 'not on the path' env PATH=$plain ./fvn
seems 'a first answer' 0 'egg 7:00' 'not proved' ./fvn
seems 'a second one, with no kit' 0 'egg 7:00' 'not proved' env PATH=$plain ./fvn
./build >"$room/log" 2>&1 &
built=$!
until grep -q 'is proved' "$room/log" || ! kill -0 $built 2>/dev/null; do sleep 0.1; done
kill $built 2>/dev/null
wait $built
if ./build >"$room/again" 2>&1 && grep -q '^1 of 3 crates were proved' "$room/again"; then
  echo 'well: a build that was broken off goes on'
else
  echo "not well: a build that was broken off: $(cat "$room/log" "$room/again")"
  failed=1
fi
seems 'the proved program' 0 'egg 7:00' - ./fvn
ln -s "$room/a folder/fvn" "$room/link"
seems 'by a link, from another folder' 0 'egg 7:00' - env -C / "$room/link"
seems 'by the shell' 0 'egg 7:00' - sh fvn
touch $low
seems 'touched sources of the same bytes' 0 'egg 7:00' - ./fvn
cp out/fvn "$room/proved"
printf '// A further line.\n' >>$low
seems 'changed sources, no kit' 125 '' 'not on the path' env PATH=$plain ./fvn
seems 'changed sources' 0 'egg 7:00' 'not proved' ./fvn
sed 's/^    x$/    x \/ 2/' "$room/low" >$low
if ./build >"$room/log" 2>&1; then
  echo 'not well: a proof that fails ends with 0'
  failed=1
fi
sed 's/^    x$/    x )/' "$room/low" >$low
seems 'text that is no code' 125 '' 'unexpected' ./fvn
if cmp -s out/fvn "$room/proved"; then echo 'well: the old program stays'; else failed=1; fi
cp "$room/low" $low
seems 'the old sources again' 0 'egg 7:00' - ./fvn
exit $failed
