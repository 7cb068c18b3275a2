#!/usr/bin/env bash
# The words that a survey heard and its rate, pulled out of what `frames` answers. FRAMES names the program.
set -euo pipefail
cd "$(dirname "$0")/.."

words() {
    local whole=no kind first second third fourth
    while read -r kind first second third fourth; do
        case $kind in
            W) echo "SACCH $second, corrected $((16#$third)) of 132" ;;
            G) echo "FACCH $second, corrected $((16#$third)) of $((16#$fourth))" ;;
            R) if [ "$first" = 7 ]; then echo "a line that is not known"; fi ;;
            T) whole=yes && echo "$first words, corrected bits in a thousand: $second" ;;
            C) echo "colour code $first: $second words" ;;
        esac
    done
    # Without its T line an answer is not whole.
    [ $whole = yes ]
}

"${FRAMES:-crates/frames/out/frames}" < "${1:-crates/frames/cases/sample.in}" | words
