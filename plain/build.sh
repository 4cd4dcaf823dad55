# The beginning of speed.sh, lists.sh, peers.sh, stack.sh and place.sh, which read it: compiles plain C and
# the program $program.c, $flags added to what both are compiled with.
#
#     sh plain/$program.sh ARCHIVE
#     sh plain/$program.sh plain     plain C in the library's place
#
# CC names the compiler (cc), LIBS what else the archive wants to be linked
# with.  Leaves $cc, $archive and the folder $dir, which goes at the end.
set -eu

if [ $# -ne 1 ]; then
	echo "usage: sh $program.sh ARCHIVE" >&2
	exit 2
fi
here=$(cd "$(dirname "$0")" && pwd)
cc=${CC:-cc}
flags="-std=c11 -O3 -Wall -Wextra -I$here/../include ${flags:-}"
dir=$(mktemp -d)
trap 'rm -rf "$dir"' EXIT

$cc $flags -c "$here/plain.c" -o "$dir/plain.o"
$cc $flags -c "$here/$program.c" -o "$dir/$program.o"
archive=$1
if [ "$1" = plain ]; then
	archive=$dir/second.o
	$cc $flags -DPLAIN_AS_REAMSTORK -c "$here/plain.c" -o "$archive"
fi

machine() {
	readelf -h "$1" 2>/dev/null | sed -n 's/.*Machine: *//p' | sort -u
}

# native: makes $dir/library.a, the archive for this machine's processor.  Where
# $archive is for another one, or NATIVE is set, that of
# scripts/archive-for for this one stands in its place: emulated, no figure would mean a thing.  Where a
# function begins in a line of the cache is worth up to a fifth of the shortest
# figures, so each begins at one.
native() {
	if [ "$archive" != "$dir/second.o" ] && { [ "${NATIVE:-}" ] || [ "$(machine "$archive")" != "$(machine "$dir/plain.o")" ]; }; then
		"$here/../scripts/archive-for" "$(uname -m)" "$dir/native.a"
		archive=$dir/native.a
		echo "Measured is the library's archive for this processor ($(uname -m))."
	fi
	cp "$archive" "$dir/library.a"
	objcopy --set-section-alignment '.text*=64' "$dir/library.a" 2>/dev/null || cp "$archive" "$dir/library.a"
}
