#!/usr/bin/env bash
# Says whether the pages quote files of this repository word for word.
#
# A block of README.md or of a page in docs/ may name a file behind its language: "```rust crates/test_calling/src/postage.rt".
# Its lines have to stand in that file, one after the other, where all of them may be indented further. A block that
# names two files has the lines of the first, each filled up to 40 characters, with those of the second beside them.
#
# It can be called from any folder, and prints a line for each block that is wrong, then how many blocks it looked at.
# The status is 1 where one is wrong or where it found none.
set -uo pipefail
cd "$(dirname "$(readlink -f "${BASH_SOURCE[0]}")")/.." || exit 1

awk '
    # How many spaces a line begins with.
    function indent(line) {
        match(line, /^ */)
        return RLENGTH
    }

    # Reads what the block is to stand in, as `text[1]` to `text[size]`.
    function read_text(  line, i) {
        size = 0
        while ((getline line < first) > 0) text[++size] = line
        close(first)
        if (second == "") return
        for (i = 1; i <= size; i++) {
            if ((getline line < second) <= 0) line = ""
            text[i] = sprintf("%-40s%s", text[i], line)
        }
        close(second)
    }

    # Whether the lines of the block stand in `text` from this line on.
    function stands_at(at,  further, i, wanted) {
        further = substr(text[at], 1, indent(text[at]) - indent(block[1]))
        for (i = 1; i <= lines; i++) {
            wanted = block[i] == "" ? "" : further block[i]
            if (text[at + i - 1] != wanted) return 0
        }
        return 1
    }

    # Whether they stand somewhere in `text`.
    function stands(  at) {
        for (at = 1; at + lines - 1 <= size; at++)
            if (indent(text[at]) >= indent(block[1]) && stands_at(at)) return 1
        return 0
    }

    FNR == 1 { inside = 0 }
    !inside && /^```[a-z]/ {
        inside = 1
        first = $2
        second = $3
        start = FNR
        lines = 0
        next
    }
    inside && /^```$/ {
        inside = 0
        if (first == "") next
        seen++
        read_text()
        if (lines && stands()) next
        wrong++
        printf "%s:%d: the block does not stand in %s\n", FILENAME, start, first (second == "" ? "" : " beside " second)
        next
    }
    inside { block[++lines] = $0 }
    END {
        printf "%d blocks are quoted, %d of them wrong\n", seen, wrong
        exit !seen || wrong > 0
    }
' README.md docs/*.md
