#!/bin/sh
# Tries the commands of bin/: what they write, what they say and how they end, on good input, on bad input and where reads and writes fail.
# Writes a line for each case that differs, and how many were tried. It needs the programs built, or builds them; python3 for two cases.
top=$(cd "$(dirname -- "$0")/.." && pwd -P) || exit 2
work=$(mktemp -d) || exit 2
trap 'rm -rf "$work"' EXIT
cd "$work" || exit 2
tried=0 differ=0

# Holds a command, run by sh in the working folder, to a status and to what its standard output and the end of its standard error are.
try() { # WHAT STATUS STDOUT SAID COMMAND
    tried=$((tried + 1))
    sh -c "$5" >out 2>err </dev/null
    ended=$?
    printf "$3" >expected
    said=$(tail -n 1 err)
    if [ "$ended" != "$2" ] || ! cmp -s out expected || case $said in *"$4") false ;; *) true ;; esac; then
        differ=$((differ + 1))
        echo "differs: $1: status $ended, not $2; said: $said; wrote:"
        head -n 5 out
    fi
}

bin=$top/bin e=$top/examples
export bin e
listing='book 0 at 27 phrases 1\nhit 17 phrase 7 right 1\nend 17 hits 1 steps 1\n'
opened='book 0 at 27 phrases 1\n'
"$bin/scan" >/dev/null || exit 2
"$bin/list" </dev/null >/dev/null 2>&1
mkdir folder
{ cat "$e/print.book"; head -c 65508 /dev/zero; } >longest.book
{ cat "$e/print.book"; head -c 65509 /dev/zero; } >long.book
cp "$e/print.book" ./-b
cp "$e/print.book" 'a book'
cp "$e/print.book" "$(printf 'b\377k')"
{ printf '\000\033'; cat "$e/print.book" "$e/print.letter"; } >input

try 'the example' 0 "$listing" '' '"$bin/scan"'
try 'two files' 0 "$listing" '' '"$bin/scan" "$e/print.book" "$e/print.letter"'
try 'the letter from standard input' 0 "$listing" '' '"$bin/scan" "$e/print.book" - <"$e/print.letter"'
try 'the letter from a pipe, byte by byte' 0 "$listing" '' 'for c in d o " " n o t " " e v e r " " p r i n t; do printf "%s" "$c"; done | "$bin/scan" "$e/print.book" -'
try 'names with blanks and hyphens' 0 "$listing" '' '"$bin/scan" "a book" "$e/print.letter" && "$bin/scan" ./-b "$e/print.letter" >/dev/null'
try 'a name that is not UTF-8' 0 "$listing" '' '"$bin/scan" b?k "$e/print.letter" && "$bin/scan" b?k - <"$e/print.letter" >/dev/null'
try 'list' 0 "$listing" '' '"$bin/list" <input'
try 'list, from a pipe in pieces' 0 "$listing" '' '{ head -c 1 input; sleep 1; tail -c +2 input | head -c 20; sleep 1; tail -c +22 input; } | "$bin/list"'
try 'an empty letter' 0 "${opened}end 0 hits 0 steps 0\nno statement\n" '' '"$bin/scan" "$e/print.book" /dev/null'
try 'a refused book' 1 'book 5 at 13\n' 'the book is refused, and the letter was not read' '"$bin/scan" "$e/refused.book" "$e/print.letter"'
try 'a book of 65,535 bytes' 1 'book 3 at 27\n' 'the book is refused, and the letter was not read' '"$bin/scan" longest.book "$e/print.letter"'
try 'a book of 65,536 bytes' 2 '' 'the book has more than 65,535 bytes; nothing is listed' '"$bin/scan" long.book "$e/print.letter"'
try 'no such book' 2 '' 'scan: there is no book file none' '"$bin/scan" none "$e/print.letter"'
try 'no such letter' 2 '' 'scan: there is no letter file none' '"$bin/scan" "$e/print.book" none'
try 'a folder as book' 2 '' 'scan: the book folder is a folder' '"$bin/scan" folder "$e/print.letter"'
try 'a folder as letter' 2 '' 'scan: the letter folder is a folder' '"$bin/scan" "$e/print.book" folder'
try 'a folder as standard input' 2 "$opened" 'the letter could not be read further; the listing is not complete' '"$bin/scan" "$e/print.book" - <folder'
try 'standard input closed' 2 '' '' '"$bin/scan" "$e/print.book" - <&-'
try 'standard input closed, list' 2 '' 'the book could not be read; nothing is listed' '"$bin/list" <&-'
try 'standard output closed' 2 '' 'scan: standard output is closed' '"$bin/scan" >&-'
try 'standard output full' 2 '' 'the listing could not be written further; it is not complete' '"$bin/scan" >/dev/full'
try 'nobody reads' 0 "$opened" '' '"$bin/scan" "$e/office.book" "$e/long.letter" >/dev/null && "$bin/scan" | head -n 1'
try 'one argument' 2 '' 'a program that can'"'"'t be built' '"$bin/scan" "$e/print.book"'
try 'an argument for list' 2 '' '(see README.md)' '"$bin/list" x <input'
try 'empty input' 1 'book 2 at 0\n' 'the book is refused, and the letter was not read' '"$bin/list" </dev/null'
try 'from another folder, by a link' 0 "$listing" '' 'ln -s "$bin/scan" s && cd / && "$OLDPWD/s"'

# A terminal whose other side goes away: the bytes before that are read, and the next read fails.
cat >terminal.py <<'P'
import os, pty, subprocess, sys, tty
given, command = open(sys.argv[1], "rb").read(), sys.argv[2:]
ours, theirs = pty.openpty()
tty.setraw(theirs)
child = subprocess.Popen(command, stdin=theirs)
os.close(theirs)
for at in range(0, len(given), 512):
    os.write(ours, given[at:at + 512])
import time
time.sleep(2)
os.close(ours)
sys.exit(child.wait())
P
if command -v python3 >/dev/null; then
    { cat input; head -c 9000 /dev/zero | tr '\000' .; } >long.input
    try 'a read that fails in the letter' 2 "${opened}hit 17 phrase 7 right 1\n" 'the letter could not be read further; the listing is not complete' 'python3 terminal.py long.input "$bin/list"'
    head -c 20 input >cut.input
    try 'a read that fails in the book' 2 '' 'the book could not be read; nothing is listed' 'python3 terminal.py cut.input "$bin/list"'
fi

echo "$tried tried, $differ differ"
[ "$differ" -eq 0 ]
