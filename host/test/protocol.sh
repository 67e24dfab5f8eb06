#!/usr/bin/env bash
# Holds docs/PIECES.md to what it says: asked again, the library and the second implementation answer each line of its worked cuttings as it
# stands. Then the page is changed in some ways, a figure or a byte each, and must not pass.
#   protocol.sh PAGE PROGRAM...
set -euo pipefail
. "$(dirname "$0")/changed.sh"
page=$1
shift

figures() { # the text blocks, with a blank line after each
    awk '$0 == "```text" { on = 1; next } $0 == "```" && on { on = 0; print ""; next } on' "$1"
}

holds() {
    local who
    [ "$(figures "$1" | grep -c '^take')" -gt 0 ] || return 1
    for who in library model; do
        "${program[@]}" "$who" < "$1" | cmp -s - <(figures "$1") || return 1
    done
}

program=("$@")
holds "$page" || { for who in library model; do "${program[@]}" "$who" < "$page" | diff - <(figures "$page") || true; done; echo "$page does not hold"; exit 1; }
changed "$page" 's/^take 04 00: 0/take 04 01: 0/' 's/12 held from 6/11 held from 6/' 's/^word 5: 0034/word 5: 1234/' 's/4 at 13; 0 held/4 at 0; 0 held/' \
    's/^end: 4 at 6/end: 20 at 0/' 's/^end: 20 at 0/end: 0 at 0/' 's/open from 0$/none open/' 's/^persistent: 1/persistent: 0/'
echo "the cuttings of $page hold, and none of $tried changed pages does"
