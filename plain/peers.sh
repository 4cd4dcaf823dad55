#!/bin/sh
# A lookup in a store and in its image beside DPDK's rte_acl and a scan, in one run.
#
#     sh plain/peers.sh ARCHIVE
#     sh plain/peers.sh plain        plain C in the library's place
#
# Where ARCHIVE is for another processor than this machine's, or NATIVE is
# set, that of scripts/archive-for for this one stands in its place.  CC names the
# compiler (cc), LIBS what else the archive wants to be linked with.  Needs
# Debian's libdpdk-dev, and exits with 2 where it is not there.
if ! pkg-config --exists libdpdk 2>/dev/null; then
	echo "peers: rte_acl is not here: install Debian's packages libdpdk-dev and pkg-config" >&2
	exit 2
fi
program=peers flags="-falign-functions=64 $(pkg-config --cflags libdpdk)"
. "$(dirname "$0")/build.sh"
native

# Names are bound when the program begins, and not within the first call.
$cc -Wl,-z,now -o "$dir/peers" "$dir/peers.o" "$dir/plain.o" "$dir/library.a" $(pkg-config --libs-only-L libdpdk) -lrte_acl -lrte_eal ${LIBS:-}
cat <<END
rte_acl is that of DPDK $(pkg-config --modversion libdpdk), as Debian has it. All decide the same packets over
the same rules, one packet at a time, and take turns; times are medians over the
rounds, the ratio is the median of each round's, a time over that of the store's
lookup. "5 fields" is rte_acl without portless, which no packet here needs.
Cold: 8 MiB of other reads before each packet.

What the figures stand beside:
  store     counts the cells that it reads, and the count is proved; takes and
            deletes single rules; allocates nothing
  image     counts blocks, proved too; is made anew from the store after an edit,
            which is in its times below; its memory comes besides the store's
  rte_acl   counts nothing; cannot delete one rule, and is built anew for an edit;
            allocates its memory; is made for many packets at a time, which are
            shown in a row of their own
  scan      counts nothing; goes through all rules for each packet

END
"$dir/peers"
