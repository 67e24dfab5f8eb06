# Compiles README's C program by README's own line, in an empty folder and against the installed files alone, runs it, and compares what it
# prints with what README says; then the same with the installed archive in place of the shared library.
#   bash installed.sh README PREFIX      CC, RUN and LOADER as in the Makefile
set -euo pipefail
readme=$(realpath "$1")
prefix=$2
rm -rf "$prefix/empty"
mkdir "$prefix/empty"
cd "$prefix/empty"

# the indented blocks of the section: first the program, then the compiler's line, then what is printed
awk '/^## / { section = /^## Call it from C$/; block = 0 }
     !section { next }
     /^    / { if (!block) { block = ++blocks; blank = "" } printf "%s%s\n", blank, substr($0, 5) > ("block" block); blank = ""; next }
     /^$/ { blank = blank "\n"; next }
     { block = 0 }' "$readme"
mv block1 show.c
line=$(cat block2)
mv block3 said
rm block*

export PKG_CONFIG_PATH=$prefix/lib/pkgconfig
# where there is no pkg-config, sed and the shell expand the file's words
words="pkg-config"
command -v pkg-config > /dev/null || words="the file for pkg-config, read by sed"
command -v pkg-config > /dev/null || pkg-config() {
    eval "$(sed -n '/^[a-z]*=/p' "$PKG_CONFIG_PATH/linkshoar.pc")"
    eval echo $(sed -n 's/^Cflags: //p; s/^Libs: //p' "$PKG_CONFIG_PATH/linkshoar.pc")
}

cc() {
    $CC -Wall -Wextra -Werror "$@"
}

eval "$line"
LD_LIBRARY_PATH=$prefix/lib $RUN $LOADER ./show | diff said -
cc show.c -I"$prefix/include" "$prefix/lib/liblinkshoar.a" -o archived
$RUN $LOADER ./archived | diff said -
echo "README's program, compiled by the words of $words, prints what README says, with the installed shared library and the installed archive"
