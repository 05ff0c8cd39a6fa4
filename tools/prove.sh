#!/bin/sh
# prove.sh PROGRAM: proves all that a program stands on, one crate after the other, then the program, and builds it. Every verdict is the toolchain's; it takes
# as many processors for a crate as it sees fit, and lets no two crates that stand on one another be proved side by side.
# Writes what the toolchain says, and a line `proved: NAME` behind each crate. Status: 0 if the program is proved and built.
set -u
top=$(cd "$(dirname -- "$0")/.." && pwd -P) || exit 2
program=${1:?'prove.sh PROGRAM'}

# The crates below the program, each behind those that it stands on.
below() {
    PROGRAM=$program awk '
        function visit(n,    a, k, m) {
            if (n in seen) return
            seen[n] = 1
            m = split(below[n], a, " ")
            for (k = 1; k <= m; k++) if (a[k] in below) visit(a[k])
            if (n != ENVIRON["PROGRAM"]) print n
        }
        { sub(/#.*/, ""); i = index($0, ":") }
        i { n = substr($0, 1, i - 1); sub(/ staticlib/, "", n); gsub(/[ \t]/, "", n); below[n] = substr($0, i + 1) }
        END { visit(ENVIRON["PROGRAM"]) }' "$top/crates.txt"
}

for crate in $(below); do
    (cd "$top/crates/$crate" && rt lib </dev/null) || exit 1
    echo "proved: $crate"
done

made=$top/crates/$program/out/$program
rm -f "$made"
(cd "$top/crates/$program" && rt run </dev/null)
[ -x "$made" ]
