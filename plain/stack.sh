#!/bin/sh
# The stack that each call of the library uses, over a full table of each kind of store.
#
#     sh plain/stack.sh ARCHIVE
#     sh plain/stack.sh plain        plain C in the library's place
#
# CC names the compiler (cc), LIBS what else the archive wants to be linked
# with, RUN what the program is started by.  The figures hold on an emulated
# processor too: for an x86-64 archive elsewhere CC is a cross compiler,
# LIBS is -static and RUN is qemu-x86_64.
program=stack
. "$(dirname "$0")/build.sh"

# Names are bound when the program begins: bound within a call, that would be on its stack.
$cc -Wl,-z,now -o "$dir/stack" "$dir/stack.o" "$dir/plain.o" "$archive" ${LIBS:-}
${RUN:-} "$dir/stack"
