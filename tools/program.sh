# What the commands of bin/ share. They set `me`, their name, and `top`, the repository's folder.

say() { printf '%s: %s\n' "$me" "$*" >&2; }

fail() {
    say "$*"
    exit 2
}

# Makes sure that a program is built: that it is there, and that no file of crates/ has changed since. A scan proves nothing again. The mark
# of a build is as old as the build's start.
ready() { # PROGRAM
    program=$top/target/bin/$1
    mark=$top/target/$1-built
    is_ready && return
    command -v rt >/dev/null || fail 'the Rattle toolchain is not here: there is no command rt'
    mkdir -p "$top/target/bin" || fail "the folder target can't be made in $top"
    enter
    is_ready || build "$1"
    leave
    is_ready || fail 'a file of crates/ changed during the build; try again'
}

# What the toolchain makes in crates/NAME/out is no source.
is_ready() {
    [ -x "$program" ] && [ -f "$mark" ] || return 1
    [ -z "$(find "$top/crates" "$top/crates.txt" -name out -prune -o -type f -newer "$mark" -print 2>&1 | head -n 1)" ]
}

# One build at a time: a second one waits.
lock=$top/target/build-lock

enter() {
    told=
    until mkdir "$lock" 2>/dev/null; do
        [ -d "$lock" ] || fail "nothing can be written in $top/target"
        [ -n "$told" ] || say "another build is under way; if that is not so, remove $lock"
        told=yes
        sleep 1
    done
    trap 'rmdir "$lock"' EXIT
    trap 'exit 2' HUP INT TERM
}

leave() {
    trap - EXIT HUP INT TERM
    rmdir "$lock"
}

# Proves and builds a program, with a line on standard error for each crate.
build() { # PROGRAM
    say 'the program is proved and built now; this takes some minutes, once'
    log=$top/target/$1-log
    rm -f "$mark.new"
    : >"$mark.new" || fail "nothing can be written in $top/target"
    ended=$({
        { "$top/tools/prove.sh" "$1" </dev/null 2>&1; echo $? >&3; } | tee "$log" | progress >&2
    } 3>&1)
    [ "$ended" = 0 ] || fail "the program could not be proved and built; $log has what the toolchain said"
    cp "$top/crates/$1/out/$1" "$program.new" && mv "$program.new" "$program" && mv "$mark.new" "$mark" || fail "nothing can be written in $top/target"
    say 'the program is built'
}

# Of what the toolchain says, the line of each crate that it proved now.
progress() {
    while IFS= read -r line; do
        case $line in
        'proved: '*) say "$line" ;;
        esac
    done
}

# Runs the program that is ready, with its own standard input and output, and ends with the status that its last sentence means. The programs
# end with 0, unless they were ended, and say on standard error how the listing ended.
run() { # [WORDS..]
    { true 3>&1; } 2>/dev/null || fail 'standard output is closed'
    exec 3>&1
    said=$(exec "$program" "$@" 2>&1 >&3 3>&-)
    case $?:$said in
    0:*'the letter is listed to its end') exit 0 ;;
    0:*'the book is refused'* | 0:*'the letter is refused'*)
        say "$said"
        exit 1
        ;;
    0:?*) fail "$said" ;;
    *) fail "the program was ended before its end; the listing is not complete${said:+ ($said)}" ;;
    esac
}
