#!/bin/sh
# How the calls grow with the rules, from 10 to 512, in large stores of 65,536 cells.
#
#     sh plain/growth.sh ARCHIVE
#     sh plain/growth.sh plain       plain C in the library's place
#
# ARCHIVE is as for speed.sh, and so are CC and LIBS.  Instructions are those of
# callgrind, of one check, insert, freeze and image check, and of a lookup the
# mean over 1,024 packets.  Times are medians over 21 rounds in which the library
# and plain C take turns, their ratios medians of each round's.  plain/growth.py
# makes a picture of what this prints.
program=speed flags=-falign-functions=64
. "$(dirname "$0")/build.sh"

native
$cc -Wl,-z,now -o "$dir/speed" "$dir/speed.o" "$dir/plain.o" "$dir/library.a" ${LIBS:-}
. "$here/counts.sh"

rules='10 20 50 100 200 400 512'
samples=
for shape in narrow overlap; do
	for n in $rules; do
		samples="$samples $shape-$n"
	done
done

cat <<'END'
Large stores of 65,536 cells, which a check goes over whatever they hold. Narrow:
nine of ten rules are for a destination prefix of 24 to 32 bits, and a rule adds
at most 32 cells in the mean. Overlap: seven of ten are for one of 8 to 15 bits
within 10.0.0.0, and as many name a prefix of sources; a rule adds at most 150
cells in the mean. Rules are drawn until they stay within that. 512 rules that
overlap do not fit 65,536 cells at 150 for each, so there it is 127. Reads are
cells, blocks those of the image, each the mean of 1,024 packets.

END

# table FILE TITLE FORMAT: lines of a shape, six numbers that say what it is, and six figures
table() {
	echo "$2"
	printf '  %-8s %5s %6s %7s %6s %6s %12s %12s %12s %12s %9s %9s\n' shape rules cells blocks reads blocks check insert freeze image_check lookup image
	awk -v format="$3" '{
		printf "  %-8s %5d %6d %7d %6.1f %6.1f", $1, $2, $3, $4, $5, $6
		for (i = 7; i <= 10; i++) printf " %12" format, $i
		for (; i <= 12; i++) printf " %9" format, $i
		print ""
	}' "$1"
	echo
}

"$dir/speed" growth $samples | sed 's/^\([a-z]*\)-[0-9]*/\1/' >"$dir/times"
awk '{ print $1, $2, $3, $4, $5, $6, $7, $9, $11, $13, $15, $17 }' "$dir/times" >"$dir/library"
awk '{ print $1, $2, $3, $4, $5, $6, $8, $10, $12, $14, $16, $18 }' "$dir/times" >"$dir/ratio"

if have_valgrind; then
	: >"$dir/counted"
	for sample in $samples; do
		counted "$sample"
		awk '
			{ took[$1 " " $2] = $4 / $3 }
			END {
				n = split("count_calls check,count_calls insert,count_calls freeze,count_calls image_check,count_packets lookup,count_packets image_lookup", arc, ",")
				for (i = 1; i <= n; i++) {
					split(arc[i], a, " ")
					printf "%s %s ", took[a[1] " reamstork_" a[2]], took[a[1] " plain_" a[2]]
				}
				print ""
			}' "$dir/arcs" >>"$dir/counted"
	done
	cut -d' ' -f1-6 "$dir/times" | paste -d' ' - "$dir/counted" >"$dir/all"
	awk '{ print $1, $2, $3, $4, $5, $6, $7, $9, $11, $13, $15, $17 }' "$dir/all" >"$dir/of_library"
	awk '{ print $1, $2, $3, $4, $5, $6, $7 / $8, $9 / $10, $11 / $12, $13 / $14, $15 / $16, $17 / $18 }' "$dir/all" >"$dir/of_both"
	table "$dir/of_library" 'Instructions of the library' .0f
	table "$dir/of_both" 'Instructions of the library over those of plain C' .2f
fi
table "$dir/library" 'Nanoseconds of the library' .0f
table "$dir/ratio" 'Nanoseconds of the library over those of plain C' .2f
