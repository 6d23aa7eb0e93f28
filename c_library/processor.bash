# SPDX-FileCopyrightText: 2026 The etherparse_transport developers
# SPDX-License-Identifier: MIT OR Apache-2.0
# What `install` and `release` need to know of the processor of an archive. They source this file.

# read_processor ARCHIVE: sets `processor` to the processor that the objects of the archive are for, as Linux names it, and `tools` to what
# the names of its binary tools begin with. That is nothing for the processor of this machine, and the prefix of cross tools for another.
read_processor() {
    local machine
    machine=$(LC_ALL=C "${READELF:-readelf}" -h -- "$1" | sed -nE 's/^ +Machine: +//p' | sort -u)
    case $machine in
        *X86-64) processor=x86_64 ;;
        AArch64) processor=aarch64 ;;
        *)
            echo "$0: the objects of $1 are for no processor that the header accepts: ${machine:-no machine is named}" >&2
            return 1
            ;;
    esac
    tools=
    [ "$processor" = "$(uname -m)" ] || tools=$processor-linux-gnu-
}
