# shellcheck shell=bash disable=SC2034  # part of `try` and `try_release`
# What the trials of the script `oldstyle` share: clones of what is committed, with the current
# script, and runs of it with the stand-in `rt` beside this file in place of the kit's.
unset CDPATH
tools=$(cd "$(dirname "${BASH_SOURCE[0]}")" && pwd)
top=$(dirname "$(dirname "$tools")")
work=$(mktemp -d "${TMPDIR:-/tmp}/try_first_run.XXXXXX")
chmod 755 "$work"
trap end_trial EXIT
trap 'exit 130' INT TERM
unset FAKE_KIT FAKE_BROKEN FAKE_DIES FAKE_SIZE FAKE_PAUSE FAKE_TRY FAKE_FAULT FAKE_OTHER NO_COLOR
unset OLDSTYLE_JOURNAL XDG_DATA_HOME
# shellcheck source=tools/launcher/stamp.bash
crates=$(cd "$top" && . tools/launcher/stamp.bash && needed_lines | wc -l)
passed=0
failed=0

end_trial() {
    umount "$work"/*/disk 2> /dev/null || true
    rm -rf "$work"
}

# check WHAT COMMAND..: the command must succeed.
check() {
    local what=$1
    shift
    if "$@" > /dev/null 2>&1; then
        passed=$((passed + 1))
        echo "passed: $what"
    else
        failed=$((failed + 1))
        echo "FAILED: $what"
        sed 's/^/    /' "$at"/err*
    fi
}

# Prints the first lines of the script.
print_help() {
    sed -n '2,/^set -/p' "$0" | sed -n 's/^#$//p; s/^# //p'
    exit
}

print_count() {
    echo "tried: $passed passed, $failed failed"
    [ "$failed" = 0 ]
}

# Makes a clone below the folder $at, beside the folders of the store, of temporary files and of
# output, and the folder here that the script is run in, with a file.
new_clone() {
    at=$work/$1
    clone=$at/clone
    words=(one two)
    export FAKE_STORE=$at/store TMPDIR=$at/temporary
    FAKE_PINNED=$(head -n 1 "$top/KIT")
    export FAKE_PINNED
    mkdir -p "$FAKE_STORE" "$TMPDIR" "$at/here"
    echo "file one" > "$at/here/one"
    git clone -q --depth 1 "file://$top" "$clone"
    rm -rf "$clone/tools"
    cp -Rp "$top/tools" "$top/oldstyle" "$top/KIT" "$clone/"
    git -C "$clone" add -A
    commit "The current script"
    : > "$FAKE_STORE/trace"
}

commit() {
    git -C "$clone" -c user.name=Trial -c user.email=trial@localhost \
        commit -q --allow-empty -m "$1"
}

# run [NAME=VALUE..]: runs the script from another folder, with the words and a line of input.
run() {
    status=0
    (cd "$at/here" && echo "a line" |
        env "PATH=$tools:$PATH" "$@" "$clone/oldstyle" "${words[@]}") \
        > "$at/out" 2> "$at/err" || status=$?
}

# Starts the same in a group of its own, as a shell with a terminal does.
start() {
    : > "$at/out$1"
    set -m
    (cd "$at/here" && exec env --default-signal=INT "PATH=$tools:$PATH" FAKE_PAUSE=0.3 \
        "$clone/oldstyle" "${words[@]}" <<< "a line") > "$at/out$1" 2> "$at/err$1" &
    started=$!
    set +m
}

await() {
    local _
    for _ in {1..300}; do
        ! "$@" || return 0
        sleep 0.1
    done
}

end_started() {
    status=0
    wait "$started" 2> /dev/null || status=$?
}

has_proved() { [ "$(wc -l < "$FAKE_STORE/trace")" -ge "$1" ]; }
ends_with() { [ "$status" = "$1" ]; }
gives() { [ "$(cat "$at/out$1")" = "$2" ]; }
is_run() { [ "$status" = 0 ] && gives "$1" $'word: one\nfile one\nword: two\na line'; }
says() { grep -q -- "$1" "$at/err"; }
says_once() { [ "$(cat "$at"/err* | grep -c -- "$1")" = 1 ]; }
says_nothing() { [ ! -s "$at/err" ]; }
has_no_control() { ! grep -q $'[\e\r]' "$at/err"; }
is_proved_once() {
    [ "$(wc -l < "$FAKE_STORE/trace")" = "$crates" ] \
        && [ -z "$(sort "$FAKE_STORE/trace" | uniq -d)" ]
}
is_clean() {
    local process
    while read -r process; do
        ! kill -0 "$process" || return 1
    done < "$FAKE_STORE/processes"
    [ -z "$(ls "$TMPDIR")" ] && [ -z "$(git -C "$clone" status --short)" ]
}
