#!/usr/bin/env bash
# Holds docs/PENCIL.md to what it says: its figures are those that crates/paper prints (stored in its file stdout, to which rt holds the
# program) and those that test/paper.c works out by other means; each block of code stands whole in one file of the plain engine's source.
# Then the page is changed in some ways, a figure or a line of code each, and must not pass.
#   paper.sh PAGE STORED OTHER SOURCE...
set -euo pipefail
. "$(dirname "$0")/changed.sh"
page=$1 stored=$2 other=$3
shift 3
sources=("$@")

# the blocks of one kind, with a line of their own after each
blocks() {
    awk -v kind="\`\`\`$1" -v after="$2" '$0 == kind { on = 1; next } $0 == "```" && on { on = 0; print after; next } on' "$3"
}

figures() { # the text blocks as the program prints them: a blank line between two
    blocks text "" "$1" | sed '$d'
}

standing() { # whether some lines stand in a row in one of the sources
    local file
    for file in "${sources[@]}"; do
        [[ $'\n'$(< "$file")$'\n' != *$'\n'"$1"* ]] || return 0
    done
    return 1
}

holds() {
    local line passage='' count=0
    figures "$1" | cmp -s - "$stored" || return 1
    figures "$1" | cmp -s - "$other" || return 1
    while IFS= read -r line; do
        if [ "$line" != END ]; then
            passage+=$line$'\n'
        else
            standing "$passage" || return 1
            passage='' count=$((count + 1))
        fi
    done < <(blocks rust END "$1")
    [ "$count" -gt 0 ]
}

holds "$page" || { figures "$page" | diff - "$stored"; figures "$page" | diff - "$other"; echo "$page does not hold"; exit 1; }
changed "$page" 's/becomes 8152/becomes 8153/' 's/^after  \(.*\)0$/after  \11/' '/^8100 becomes/d' 's/let quad = b \/ 4;/let quad = b \/ 3;/' \
    's/for j in 0\.\.4 {/for j in 0..3 {/' 's/let left = bits_left(columns, j, mask);/let left = bits_left(columns, b, mask);/' \
    's/^    if persistent { register } else { given }$/    old/' 's/has(columns, 4 \* quad + j)/has(strobes as u16, flag)/'
echo "the figures and lines of $page hold, and none of $tried changed pages does"
