# For the scripts that hold a page to what it says: each change of a copy of the page must be refused by the script's own `holds`.
#   changed PAGE CHANGE...      sets `tried` to how many there were
changed() {
    local page=$1 change
    shift
    damaged=$(mktemp)
    trap 'rm -f "$damaged"' EXIT
    tried=0
    for change in "$@"; do
        sed "$change" "$page" > "$damaged"
        ! cmp -s "$page" "$damaged" || { echo "$change changes nothing in $page"; exit 1; }
        ! holds "$damaged" || { echo "$page passes after $change"; exit 1; }
        tried=$((tried + 1))
    done
}
