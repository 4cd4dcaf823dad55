#!/bin/sh
# The library beside an earlier one, over small stores, in one run: whether what
# stands in a field stays as quick as it was.
#
#     sh plain/before.sh ARCHIVE EARLIER
#
# EARLIER is an archive of version 4.1 or 4.2, whose tally record has 65 places,
# for the same processor.  Both are linked into one program, the earlier one's
# calls under other names.  CC names the compiler (cc), LIBS what else the
# archives want to be linked with.  SAMPLES are names of samples of small stores
# from speed.c, where not all are wanted.  Where valgrind is there the
# instructions of lookups and of all other calls are counted too.
if [ $# -ne 2 ]; then
	echo "usage: sh before.sh ARCHIVE EARLIER" >&2
	exit 2
fi
earlier=$2
set -- "$1"
program=speed flags="-falign-functions=64 -DEARLIER -DROUNDS=201"
. "$(dirname "$0")/build.sh"

native

# as native does it for the library: where a function begins is worth more than what is looked for here
nm "$earlier" 2>/dev/null | awk '$2 == "T" { other = $3; sub(/^reamstork_/, "earlier_", other); print $3, other }' >"$dir/names"
objcopy --redefine-syms="$dir/names" --set-section-alignment '.text*=64' "$earlier" "$dir/earlier.a"
$cc -Wl,-z,now -o "$dir/speed" "$dir/speed.o" "$dir/plain.o" "$dir/library.a" "$dir/earlier.a" ${LIBS:-}
cat <<'END'
The library and the earlier one take turns over the same small stores, rules and
packets. Times are medians over the rounds; the ratio is the median of each
round's, below 1 where the library is quicker than the earlier one.

END
samples=${SAMPLES:-"small-0 small-10 small-60 small-overlap-60"}
"$dir/speed" lookups $samples

. "$here/counts.sh"
have_valgrind || exit 0
for sample in $samples; do
	echo "$sample: instructions (callgrind)"
	instructions "$sample" earlier
done
