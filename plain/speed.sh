#!/bin/sh
# The library beside plain C, in one run.
#
#     sh plain/speed.sh ARCHIVE
#     sh plain/speed.sh plain        plain C in the library's place: what
#                                    the measurement itself is good for
#
# Where ARCHIVE is for another processor than this machine's, or NATIVE is
# set, that of scripts/archive-for for this one stands in its place.  CC names the
# compiler (cc), which compiles plain C with -O3; LIBS what else the archive
# wants to be linked with.  SAMPLES are names of samples from speed.c, where not
# all are wanted.  Where valgrind is there the instructions of each call are
# counted too.
program=speed flags=-falign-functions=64
. "$(dirname "$0")/build.sh"

native

# Names are bound when the program begins, and not within the first call.
$cc -Wl,-z,now -o "$dir/speed" "$dir/speed.o" "$dir/plain.o" "$dir/library.a" ${LIBS:-}
cat <<'END'
Library and plain C take turns over the same words, rules and packets. A round
is one turn of each. Times are medians over the rounds. The ratio is made round
by round, the library's time over plain C's, and the median of these is shown:
so it need not be the quotient of the two times beside it. Below 1 the library
is quicker.
Dead is one call for each rule and the default, or in a table of more than 64
rules for 16 of them and the default. Its ratios, and its times over that of a
check by the same side, are quotients of the medians. All other "over"
rows are made round by round, each side over its own.
Image rows are lookups in the image of the same store; "image over store" is the
time of its lookup over that of the store's lookup by the same side.
Cold caches: 8 MiB of other reads before each lookup, so that code and words
come from far away. Cold words only: the code has run once on another store.
On a quiet machine two copies of the same code come out within 0.05, cold ones
within 0.15.

END
samples=${SAMPLES:-"small-10 small-60 small-overlap-60 10 60 narrow-400 overlap-400"}
"$dir/speed" $samples

. "$here/counts.sh"
have_valgrind || exit 0
for sample in $samples; do
	echo "$sample: instructions (callgrind)"
	instructions "$sample" plain
done
