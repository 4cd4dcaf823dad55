# A part of speed.sh, before.sh, growth.sh and lists.sh, which read it: counts the
# instructions of each call by callgrind.  Wants $dir, with the program speed in it.

have_valgrind() {
	command -v valgrind >/dev/null 2>&1 && return
	echo "No valgrind: instructions are not counted."
	return 1
}

# counted SAMPLE [COMMAND]: makes $dir/arcs, a line "caller callee calls instructions" for
# each function that calls another, with what the callee and all below it took for it, over
# what speed does for the command, which is counts where none is named; and $dir/what, what
# it prints: of counts the rules, the cells in use, and the reads and blocks of the worst
# packets.  The sample is drawn beforehand, since valgrind would take long for it.
counted() {
	"$dir/speed" draw "$1" "$dir/sample"
	if ! valgrind --tool=callgrind --compress-strings=no --callgrind-out-file="$dir/callgrind" \
		"$dir/speed" "${2:-counts}" "$dir/sample" >"$dir/what" 2>"$dir/err"; then
		cat "$dir/err" >&2
		echo "  valgrind fails here: nothing is counted"
		return 1
	fi
	awk '
		/^fn=/ { caller = substr($0, 4) }
		/^cfn=/ { callee = substr($0, 5) }
		/^calls=/ {
			calls = substr($1, 7)
			getline
			times[caller " " callee] += calls
			took[caller " " callee] += $2
		}
		END { for (arc in took) print arc, times[arc], took[arc] }' "$dir/callgrind" >"$dir/arcs"
}

# instructions SAMPLE OTHER: a table of them, of the library beside the other side, whose
# functions are named plain_.. or earlier_..
instructions() {
	counted "$1" || return 0
	awk -v other="$2" '
		FNR == NR { rules = $1; cells = $2; reads = $3; blocks = $4; next }
		{ took[$1 " " $2] = $4 / $3 }
		END {
			name[0] = "reamstork_"
			name[1] = other "_"
			printf "  %-26s %12s    %12s    %8s\n", "", "library", other == "plain" ? "plain C" : other, "ratio"
			row("lookup by values, mean", "count_packets", "lookup", 1)
			row("lookup by packet, mean", "count_packets", "lookup_packet", 1)
			row("with tallies, mean", "count_packets", "lookup_packet_tally", 1)
			if (rules > 0) row("scan, mean", "count_packets", "scan", 1)
			parts("lookup", reads, "one read more", "a lookup besides its reads")
			row("image: by values, mean", "count_packets", "image_lookup", 1)
			row("image: by packet, mean", "count_packets", "image_lookup_packet", 1)
			row("image: tallies, mean", "count_packets", "image_lookup_packet_tally", 1)
			parts("image_lookup", blocks, "image: one block more", "image: besides its blocks")
			over("image over store", "count_packets", "image_lookup", "lookup")
			n = split("check insert delete carry dead worst image_words freeze image_check image_worst", call, " ")
			for (i = 1; i <= n; i++) {
				if (!has("count_calls", call[i])) continue
				row(call[i], "count_calls", call[i], 0)
				if (i > 1) over(call[i] ", over a check", "count_calls", call[i], "check")
			}
			if (has("count_calls", "carry") && has("count_calls", "insert")) over("carry, over an insert", "count_calls", "carry", "insert")
			print ""
		}
		# the earlier library has a record of its own, which a function of another name hands it
		function cost(side, caller, callee,   arc) {
			arc = caller " " name[side] callee
			if (!(arc in took)) { sub(/lookup_packet_tally/, "tally", arc) }
			return took[arc]
		}
		function has(caller, callee) {
			return cost(0, caller, callee) > 0 && cost(1, caller, callee) > 0
		}
		function show(text, a, b, digits) {
			printf "  %-26s %12." digits "f    %12." digits "f    %8.3f\n", text, a, b, a / b
		}
		function row(text, caller, callee, digits) {
			show(text, cost(0, caller, callee), cost(1, caller, callee), digits)
		}
		function over(text, caller, callee, base) {
			printf "  %-26s %12.3f    %12.3f\n", text, cost(0, caller, callee) / cost(0, caller, base), cost(1, caller, callee) / cost(1, caller, base)
		}
		# what a read or a block costs, from the packet that has most of them and one that has six
		function parts(callee, most, one, rest,   side, each, fixed) {
			if (most <= 6) {
				row(rest " and six", "count_least", callee, 1)
				return
			}
			for (side = 0; side < 2; side++) {
				each[side] = (cost(side, "count_most", callee) - cost(side, "count_least", callee)) / (most - 6)
				fixed[side] = cost(side, "count_least", callee) - 6 * each[side]
			}
			show(one, each[0], each[1], 1)
			show(rest, fixed[0], fixed[1], 1)
		}' "$dir/what" "$dir/arcs"
}
