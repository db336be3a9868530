# What bench/run, bench/places and bench/reading share. $here is this folder, $out the one for what is made.
# shellcheck shell=sh

# archive ROOT: where the static library of a checkout lies. One for an older Rattle kept it elsewhere.
archive() {
    if grep -q '^teldruf staticlib:' "$1/crates.txt"; then
        echo "$1/crates/teldruf/out/libteldruf.a"
    else
        echo "$1/target/staticlib/libteldruf.a"
    fi
}

# built ROOT: that library. Of a checkout for an older Rattle, which this one does not build, it is taken as it is.
built() {
    if grep -q '^teldruf staticlib:' "$1/crates.txt"; then
        (cd "$1/crates/teldruf" && rt lib) > "$out/staticlib" 2>&1 || { cat "$out/staticlib"; exit 1; }
    elif [ ! -e "$(archive "$1")" ]; then
        echo "$(archive "$1") is not there: build it with the Rattle that $1 is written for" >&2
        exit 1
    fi
}

# object ROOT NAME: $out/NAME.o, the library of a checkout with its bench/library.c as NAME, which alone can be seen, so that the names of two
# libraries do not meet; library.c is a copy, so that it takes the bench.h of this benchmark
object() {
    cp "$1/bench/library.c" "$out/$2.c"
    gcc -O3 -c -DLIBRARY_CALL="$2" -I "$here" -I "$1/include" -o "$out/$2.call.o" "$out/$2.c"
    ld -r -o "$out/$2.all.o" "$out/$2.call.o" "$(archive "$1")"
    objcopy --keep-global-symbol="$2" "$out/$2.all.o" "$out/$2.o"
}

# most ROOT: the most neighbours that the library of a checkout knows
most() {
    if grep -q TELDRUF_NEIGHBOURS "$1/include/teldruf.h"; then echo 8; else echo 4; fi
}

# known ROOT: how many of the calls the library of a checkout knows, by their names in bench.h: those before the first map with a gap, those
# before the dark map, those before the map by triples, or all
known() {
    if grep -q teldruf_map_triples "$1/include/teldruf.h"; then
        echo PARTS
    elif grep -q TELDRUF_DARK "$1/include/teldruf.h"; then
        echo TRIPLES
    elif grep -q TELDRUF_GAP "$1/include/teldruf.h"; then
        echo DARK
    else
        echo MAP_4
    fi
}

# numbered ROOT: 2 if the reader of a checkout takes the number of a picture, else 1, as BEFORE in reading.c
numbered() {
    if grep -q TELDRUF_PICTURE_NUMBER "$1/include/teldruf.h"; then echo 2; else echo 1; fi
}
