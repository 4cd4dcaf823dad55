#!/bin/sh
# A list of 32 edits beside the same edits given singly, and beside a check, in the
# library and in plain C.
#
#     sh plain/lists.sh ARCHIVE
#     sh plain/lists.sh plain        plain C in the library's place
#
# ARCHIVE is as for speed.sh, and so are CC, LIBS and SAMPLES.  Where valgrind is
# there instructions are counted too.
program=speed flags=-falign-functions=64
. "$(dirname "$0")/build.sh"

native
$cc -Wl,-z,now -o "$dir/speed" "$dir/speed.o" "$dir/plain.o" "$dir/library.a" ${LIBS:-}
cat <<'END'
The list takes rules out and puts them in again, 16 from all over the table; of 10
rules all, and then 6 of them once more. It leaves the words as they were. Singly
each of its 32 edits runs the check and builds the tree; the list does both once,
and counts the cells for each of its 16 inserts, as an insert does. Times are
medians over the rounds, and "over" rows are made round by round, each side over
its own, as in speed.sh.

END
samples=${SAMPLES:-"small-10 small-60 10 60 narrow-400 overlap-400"}
"$dir/speed" lists $samples

. "$here/counts.sh"
have_valgrind || exit 0
for sample in $samples; do
	echo "$sample: instructions (callgrind)"
	counted "$sample" list || continue
	awk '
		{ took[$1 " " $2] = $4 }
		END {
			name[0] = "reamstork_"
			name[1] = "plain_"
			for (side = 0; side < 2; side++) {
				check[side] = took["count_list " name[side] "check"]
				list[side] = took["count_list " name[side] "edit_list"]
				singly[side] = took["one_by_one " name[side] "insert"] + took["one_by_one " name[side] "delete"]
			}
			printf "  %-24s %12s    %12s    %8s\n", "", "library", "plain C", "ratio"
			row("check", check)
			row("the 32 edits singly", singly)
			row("a list of them", list)
			over("the list, over a check", check)
			over("the list, over singly", singly)
			print ""
		}
		function row(text, a) {
			printf "  %-24s %12.0f    %12.0f    %8.3f\n", text, a[0], a[1], a[0] / a[1]
		}
		function over(text, base) {
			printf "  %-24s %12.3f    %12.3f\n", text, list[0] / base[0], list[1] / base[1]
		}' "$dir/arcs"
done
