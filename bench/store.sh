#!/usr/bin/env bash
# Put and get on the flat store against a plain array of slots, in one run; prints both times and their ratio.
set -e
cd "$(dirname "$0")/.."
said=$(cd crates/bench_store && rt run 2>&1) || { echo "$said"; exit 1; }
out=target/bench
mkdir -p $out
cc -O3 bench/store.c bench/slots.c -o $out/store
flat=crates/bench_store/out/bench_store plain=$out/store
n=20000000

# The best of nine, less the best of nine of the same with every place put and got once: what is put is read back, and
# what making the store takes is not counted.
compare() {
  for i in 1 2 3 4 5 6 7 8 9; do
    for program in $flat $plain; do
      echo "$program with $($program $1 $(($1 + $2)) $(($1 + $3)))"
      echo "$program without $($program $1 $1 $1)"
    done
  done | awk -v flat=$flat -v plain=$plain -v n=$n -v what="$(($1 - 1)) places, $4" '
    { k = $1 " " $2; if (!(k in best) || $3 < best[k]) best[k] = $3
      if (!($2 in seen)) seen[$2] = $4
      if (seen[$2] != $4) { print "the two do not agree"; exit 1 } }
    function each(p) { return (best[p " with"] - best[p " without"]) / n }
    END { if (NR == 36)
      printf "%s: flat store %.2f ns, plain array %.2f ns, ratio %.2f\n", what, each(flat), each(plain), each(flat) / each(plain) }'
}

for places in 9 14 21; do
  compare $((1 << places)) $n 0 put
  compare $((1 << places)) 0 $n get
done
