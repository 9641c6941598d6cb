#!/bin/sh
# Times routes over generated books: the product beside a plain Rust program, in turn, on the same books and queries.
# bench/run.sh [TURNS]: each book is run so many times by each program (8), and each run answers every query 20
# times. It fails where the answers differ. It needs rt, rustc and gcc, and proves the timed program first, in a copy of the
# repository in BENCH_DIR, which is kept where it is given. RT is the command for rt.
set -eu
here=$(cd "$(dirname "$0")" && pwd)
root=$(dirname "$here")
rt=${RT:-rt}
turns=${1:-8}
if [ -n "${BENCH_DIR:-}" ]; then
    work=$BENCH_DIR
    mkdir -p "$work"
else
    work=$(mktemp -d)
    trap 'rm -rf "$work"' EXIT
fi
books="256x3072 64x3072 16x3072 256x768"
gcc_words="-std=c11 -D_DEFAULT_SOURCE -O2"

# What each book is made of, and the measure.
rustc -C opt-level=3 -o "$work/books" "$here/books.rs"
rustc -C opt-level=3 -o "$work/plain" "$here/plain.rs"
for book in $books; do
    "$work/books" "$work/$book" "${book%x*}" "${book#*x}"
done

# A copy of the repository with one crate more, in which what was checked before is taken over.
repository=$work/repository
mkdir -p "$repository"
rm -rf "$repository/crates"
cp -r "$root/crates" "$root/crates.txt" "$repository/"
mkdir -p "$repository/crates/bench/src" "$repository/crates/bench/data"
cp "$here/routes.rt.txt" "$repository/crates/bench/src/main.rt"
cp "$work/256x768/book.img" "$work/256x768/queries" "$work/256x768/notices" "$repository/crates/bench/data/"
"$work/plain" "$work/256x768" 1 >"$repository/crates/bench/stdout" 2>/dev/null
cat "$here/crate.txt" >>"$repository/crates.txt"
# built and run by hand below: here it finds no book, and ends with a message
(cd "$repository/crates/bench" && "$rt" run) >"$work/rt.log" 2>&1 </dev/null || true
(cd "$repository/crates/console_c" && "$rt" lib) >>"$work/rt.log" 2>&1 || true
routes=$repository/crates/bench/out/bench
library=$repository/crates/console_c/out/libconsole_c.a
[ -x "$routes" ] && [ -s "$library" ] || {
    tail -30 "$work/rt.log"
    exit 1
}

# least FILE NAME: the least number that a line 'NAME: N ns' of the file has
least() {
    sed -n "s/^$2: \([0-9]*\) ns\$/\1/p" "$1" | sort -n | head -1
}

# row BOOK CASE: a line of the table
row() {
    ours=$(least "$work/$1/routes.times" "$2")
    plain=$(least "$work/$1/plain.times" "$2")
    lists=$(least "$work/$1/plain.times" "$2 lists")
    echo "$1 $2 $ours $plain $lists" | awk '{ printf "%-10s %-6s %8d %8d %6.2f %8d %6.2f\n", $1, $2, $3, $4, $3 / $4, $5, $3 / $5 }'
}

for book in $books; do
    rm -f "$work/$book/routes.times" "$work/$book/plain.times"
done
for turn in $(seq "$turns"); do
    for book in $books; do
        "$work/plain" "$work/$book" >"$work/$book/plain.answers" 2>>"$work/$book/plain.times"
        (cd "$work/$book" && "$routes" >routes.answers 2>>routes.times)
        cmp "$work/$book/plain.answers" "$work/$book/routes.answers"
    done
done

echo "ns per route: the product; the plain program, ratio; the plain program with lists of what continues, ratio"
for case in free full; do
    for book in $books; do
        row "$book" "$case"
    done
done
for book in $books; do
    echo "$book: opening $(least "$work/$book/routes.times" open) ns, thinning $(least "$work/$book/routes.times" thin) ns"
done
rm -f "$work/console.times"
# shellcheck disable=SC2086
gcc $gcc_words -o "$work/cases" "$root/console/cases.c" "$library"
for turn in $(seq "$turns"); do
    "$work/cases" time >>"$work/console.times"
done
echo "console, least of the means of 1000 calls, in us:"
sed -n 's/^  \(.*[^ ]\)  *mean of 1000 calls *\([0-9.]*\) us.*/\2 \1/p' "$work/console.times" | sort -n | awk '{ time = $1; $1 = ""; if (!($0 in seen)) print "   ", time, $0; seen[$0] = 1 }'
