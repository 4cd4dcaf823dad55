#!/bin/sh
# What finding a new rule's place costs, in instructions: for a number above
# all that stand, by how many these are, and in a table of one size, by how
# many of them are below the number.
#
#     sh plain/place.sh ARCHIVE
#     sh plain/place.sh plain        plain C in the library's place
#
# ARCHIVE is the library for this machine's processor.  CC names the compiler
# (cc), LIBS what else the archive wants to be linked with.  Needs valgrind.
program=place
. "$(dirname "$0")/build.sh"

machine() {
	readelf -h "$1" 2>/dev/null | sed -n 's/.*Machine: *//p' | sort -u
}
if [ "$(machine "$archive")" != "$(machine "$dir/place.o")" ]; then
	echo "The archive is for another processor than this one ($(uname -m)): valgrind cannot run it. Nothing is counted."
	exit 0
fi
if ! command -v valgrind >/dev/null 2>&1; then
	echo "No valgrind: instructions are not counted."
	exit 0
fi
$cc -o "$dir/place" "$dir/place.o" "$dir/plain.o" "$archive" ${LIBS:-}

# count FUNCTION ANSWER CALL RULES BELOW: the instructions of the call, which
# is one of FUNCTION and must give ANSWER
count() {
	valgrind --tool=callgrind --callgrind-out-file=/dev/null \
		--toggle-collect="reamstork_$1" "$dir/place" "$3" "$4" "$5" >"$dir/out" 2>"$dir/err"
	if [ "$(cat "$dir/out")" != "$2" ]; then
		echo "place $3 $4 $5: the answer is not $2" >&2
		return 1
	fi
	sed -n 's/.*Collected : *//p' "$dir/err"
}

# place BELOW RULES: finding the place alone, of a number that is not there
place() {
	after=$(count read 4 read "$2" "$1")
	before=$(count read 1 high "$2" "$1")
	echo $((after - before))
}

# row NAME COMMAND..: what the command says of each column, which it is given last
row() {
	printf '  %-44s' "$1"
	shift
	for column in $columns; do
		figure=$("$@" "$column")
		printf '%9d' "$figure"
	done
	echo
}

head() {
	printf '%-46s' "$1"
	printf '%9d' $columns
	echo
}

cat <<'END'
Instructions by callgrind. Finding the place alone is a call that is refused
just after it, less the same call refused just before it. Read and insert find
it by the same function. All rules have the same ranges, so of a whole insert
only finding the place and moving the rows behind it depend on the place.

END
columns='1 8 64 128 256 510 511'
above_all() { place "$1" "$1"; }
head 'rules, all below the new number:'
row 'finding the place: read, 4 less 1' above_all

columns='0 1 128 256 384 510 511'
of_511() { place "$1" 511; }
head 'of 511 rules below the new number:'
row 'finding the place: read, 4 less 1' of_511
row 'a whole insert' count insert 0 insert 511

columns='0 1 128 256 384 511 512'
of_512() {
	after=$(count insert 5 insert 512 "$1")
	before=$(count insert 2 wrong 512 "$1")
	echo $((after - before))
}
head 'of 512 rules below the new number:'
row 'finding the place: insert, 5 less 2' of_512
