# Prints, as a Markdown table, the x86-64 instructions executed for each unit of work, the caller's included, and how many times plain C's
# and tuned C's (the better of -O2 and -O3) the library's are. A work is run so often and twice as often, and the difference counts, so
# that what comes before and after cancels. The counter is a plugin of the user-mode emulator, which gives the same on every machine for the
# same program, or on x86-64 the processor's own, or valgrind. Where there is none this says so and ends well.
#   count.sh program folder        CC: the compiler of program; EMULATOR: the emulator that takes plugins; HOSTCC: the compiler for the
#                                  machine that the emulator runs on
program=$1
folder=$2
here=$(dirname "$0")

by_plugin() {
    rm -f "$folder/executed"
    "$EMULATOR" -cpu qemu64 -plugin "$folder/instructions.so,out=$folder/executed" "$program" "$@" && cat "$folder/executed"
}

by_processor() {
    perf stat -x, -e instructions:u -o "$folder/executed" "$program" "$@" &&
        sed -n 's/^\([0-9][0-9]*\),.*instructions.*/\1/p' "$folder/executed"
}

by_valgrind() {
    valgrind --tool=callgrind --callgrind-out-file=/dev/null "$program" "$@" 2>&1 | sed -n 's/.*Collected : \([0-9][0-9]*\).*/\1/p'
}

works_with() { # whether this counter gives a number
    counted=$("$1" 0 0 0 2> /dev/null) && [ -n "$counted" ]
}

counter=
if command -v "$EMULATOR" > /dev/null; then
    for number in 1 2 3 4 5 6; do # of the plugin interface: an emulator takes a few of them
        "$HOSTCC" -O2 -shared -fPIC -DPLUGIN=$number "$here/instructions.c" -o "$folder/instructions.so" || break
        works_with by_plugin && counter=by_plugin && break
    done
fi
if [ -z "$counter" ] && [ "$(uname -m)" = x86_64 ]; then
    for each in by_processor by_valgrind; do
        works_with $each && counter=$each && break
    done
fi
if [ -z "$counter" ]; then
    echo "nothing is counted: there is no emulator here that takes plugins ($EMULATOR; Debian has it in qemu-user, not in qemu-user-static)"
    [ "$(uname -m)" = x86_64 ] && echo "and neither perf nor valgrind counts"
    exit 0
fi

echo "| instructions for one | library | plain C -O2 | plain C -O3 | tuned C -O2 | tuned C -O3 | by plain | by tuned |"
echo "|---|---|---|---|---|---|---|---|"
"$program" works > "$folder/works" 2> /dev/null || "$EMULATOR" "$program" works > "$folder/works"
work=0
while IFS='	' read -r name times units; do
    row="$name"
    for which in 0 1 2 3 4; do
        once=$($counter $which $work $times) && twice=$($counter $which $work $((2 * times))) || exit 1
        row="$row;$((twice - once)) $((times * units))"
    done
    echo "$row" | awk -F';' '{
        for (i = 2; i <= 6; i++) { split($i, n, " "); each[i] = n[1] / n[2] }
        plain = each[3] < each[4] ? each[3] : each[4]
        tuned = each[5] < each[6] ? each[5] : each[6]
        printf "| %s |", $1
        for (i = 2; i <= 6; i++) printf " %.2f |", each[i]
        printf " %.2f | %.2f |\n", each[2] / plain, each[2] / tuned
    }'
    work=$((work + 1))
done < "$folder/works"
case $counter in
by_plugin) by="a plugin of the emulator" ;;
by_processor) by="the processor" ;;
by_valgrind) by="valgrind" ;;
esac
echo
echo "Counted by $by; C compiled by $($CC --version | head -n 1)."
