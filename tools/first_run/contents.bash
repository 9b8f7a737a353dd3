# shellcheck shell=bash disable=SC2154  # part of `try`
# Tries what makes the program an old one: contents do, dates and places don't.

# stale WHAT COMMAND..: after the command, in the clone that is built, the script tries to build,
# which it says if there is no rt.
stale() {
    local what=$1
    shift
    (cd "$clone" && "$@")
    run PATH=/usr/bin:/bin
    check "noticed: $what" ends_with 125
    (cd "$clone" && git checkout -q -- . && git clean -qdf)
}

# fresh WHAT COMMAND..: after the command the program starts, with no rt.
fresh() {
    local what=$1
    shift
    (cd "$clone" && "$@")
    run PATH=/usr/bin:/bin
    check "no difference: $what" is_run ""
}

append() { echo >> "$1"; }
move_line() { tail -n 1 "$1" >> "$2" && sed -i '$d' "$1"; }
change_line() { sed -i 's/^oldstyle: .*/& itoa/' crates.txt; }

# link_source FILE: moves the file elsewhere, and puts a link to it in its place.
link_source() { mv "$1" "$at/source" && ln -s "$at/source" "$1"; }
change_linked() { link_source "$1" && append "$at/source"; }

try_contents() {
    local file=crates/osn_core/src/lib.rt
    stale "a source that changed" append $file
    stale "a specification that changed" append crates/osn_days/specs/Lib.antt
    stale "a proof that is gone" rm crates/osn_core/proofs/Lib.antt
    stale "another source with an old date" cp -p crates/osn_days/src/lib.rt $file
    stale "a file that is new" touch crates/osn_service/proofs/New.antt
    stale "a file of another name" mv $file crates/osn_core/src/other.rt
    stale "a line that moved to another file" move_line crates/osn_days/src/lib.rt $file
    stale "what a link leads to" change_linked $file
    stale "the list of crates" change_line
    stale "the handles" append HANDLES
    stale "the kit" sed -i '1s/.*/rattle-kit-14a logic 00/' KIT
    cp -p "$clone/crates/oldstyle/out/oldstyle" "$at/built"
    stale "another program with an old date" cp -p /bin/true crates/oldstyle/out/oldstyle
    cp -p "$at/built" "$clone/crates/oldstyle/out/oldstyle"
    fresh "all is as it was" true
    fresh "other dates" find . -exec touch {} +
    fresh "older dates" find . -exec touch -d 2001-02-03 {} +
    fresh "a link to a source" link_source $file
    fresh "tests and mutants" append crates/osn_service_tests/src/lib.rt
    fresh "a remark in the list of crates" sed -i '1s/$/ And more./' crates.txt
    run
    check "and nothing is proved again" is_proved_once
}

# A commit that changes a source, from which the clone goes back to the one before.
there_and_back() {
    append crates/osn_core/src/lib.rt
    git add -A
    commit "Another source"
    git checkout -q HEAD~1
}

# What `rt run` leaves in the crate's folder: the program with no stamp.
build_by_rt() {
    rm crates/oldstyle/out/oldstyle.stamp
    touch crates/oldstyle/out/oldstyle
}

try_places() {
    local first=$clone
    (cd "$clone" && git checkout -q -- .)
    fresh "git checkout there and back" there_and_back
    cp -r "$first" "$at/copied"
    cp -a "$first" "$at/kept_dates"
    for clone in "$at/copied" "$at/kept_dates"; do
        fresh "a copy, ${clone##*/}" true
    done
    clone=$at/linked
    mkdir "$clone"
    ln -s "$first/oldstyle" "$clone/oldstyle"
    fresh "a link to the script" true
    clone=$at/copied
    stale "in a copy, a source that changed" append crates/osn_core/src/lib.rt
    try_read_only
    clone=$first
    # (the clock of a file system ticks every few milliseconds)
    sleep 0.05
    fresh "what rt built in its own folder" build_by_rt
    stale "a source that changed since" append crates/osn_core/src/lib.rt
}

# run_as_other: as a user who may not write in the tree.
run_as_other() {
    status=0
    (cd "$at/here" && echo "a line" | env "PATH=$1" "${other[@]}" "$clone/oldstyle" "${words[@]}") \
        > "$at/out" 2> "$at/err" || status=$?
}

try_read_only() {
    local other=()
    chmod -R a+rX,go-w "$clone" "$at/here"
    if [ "$(id -u)" = 0 ]; then
        other=(setpriv --reuid=65534 --regid=65534 --clear-groups)
    else
        chmod -R a-w "$clone"
    fi
    run_as_other /usr/bin:/bin
    check "no difference: a tree that may only be read" is_run ""
    chmod u+w "$clone/crates/oldstyle" "$clone/crates/oldstyle/out"
    mv "$clone/crates/oldstyle/out" "$at/out_of_copy"
    chmod u-w "$clone/crates/oldstyle"
    run_as_other "$tools:$PATH"
    check "if that isn't built, it ends with 125" ends_with 125
    check "and says so" says_once "the program is not built, and this folder can't be written"
    chmod -R u+w "$clone"
}

# What the program of the stand-in rt prints of a shell.
completed() { printf '%s\n' "word: completions" "word: $1"; }

# refused OPTION SAYS: before anything is proved or made.
refused() {
    words=(install "${@:3}" "$1")
    run
    check "install $1 is refused" ends_with 125
    check "with the form" says_once "$2"
    check "and nothing is proved or made" bash -c \
        "[ ! -s '$FAKE_STORE/trace' ] && [ \$(ls '$at/here') = one ]"
}

try_install_words() {
    refused --prefix=/usr/local "write ./oldstyle install /usr/local"
    refused -x "oldstyle install .FOLDER."
    refused two "takes one folder or none" one
    words=(install --help)
    run
    check "install --help ends with 0" ends_with 0
    check "and says its form" grep -q "^usage: ./oldstyle install .FOLDER." "$at/out"
    check "and nothing is made" test "$(ls "$at/here")" = one
}

# A file of an older version, and one of the user's beside it.
try_uninstall() {
    local list=share/oldstyle/files.txt
    mkdir -p "$at/under/share/oldstyle/older"
    touch "$at/under/share/oldstyle/older/file" "$at/under/share/oldstyle/own"
    printf '%s\n' share/oldstyle/older/file ../here/one >> "$at/under/$list"
    words=(install "$at/under")
    run PATH=/usr/bin:/bin
    check "what an older version had more is removed" test ! -e "$at/under/share/oldstyle/older"
    check "each listed file is there" bash -c "cd '$at/under' && xargs ls < $list"
    check "and each file except the user's is listed" diff <(sort "$at/under/$list") <(
        cd "$at/under" && find . ! -type d ! -path ./share/oldstyle/own -printf '%P\n' | sort)
    cp -a "$at/under" "$at/removed"
    words=(uninstall "$at/removed")
    run PATH=/usr/bin:/bin
    check "uninstall ends with 0" ends_with 0
    check "and leaves the user's file alone" test \
        "$(cd "$at/removed" && find . ! -type d)" = ./share/oldstyle/own
    check "nothing out of the folder is removed" test -e "$at/here/one"
    run PATH=/usr/bin:/bin
    check "once more it is refused" says_once "nothing is installed under $at/removed"
    words=(uninstall --prefix=/usr)
    run PATH=/usr/bin:/bin
    check "and so is an option" says_once "write ./oldstyle uninstall /usr"
}

try_install() {
    new_clone install
    try_install_words
    words=(install "$at/under")
    run
    check "install proves and builds first" is_proved_once
    check "and ends with 0" ends_with 0
    check "and says what it did" says_once "installed under $at/under: bin/oldstyle"
    check "with the manual" cmp "$clone/docs/oldstyle.1" "$at/under/share/man/man1/oldstyle.1"
    check "and what completes its arguments in bash" \
        cmp "$at/under/share/bash-completion/completions/oldstyle" <(completed bash)
    check "in zsh" cmp "$at/under/share/zsh/site-functions/_oldstyle" <(completed zsh)
    check "in fish" cmp "$at/under/share/fish/vendor_completions.d/oldstyle.fish" <(completed fish)
    check "and the samples" diff -r "$clone/examples" "$at/under/share/oldstyle/examples"
    check "which find the program" test -x "$at/under/share/oldstyle/examples/../oldstyle"
    check "and the documents" diff -r -x oldstyle.1 -x CHANGELOG.md "$clone/docs" \
        "$at/under/share/doc/oldstyle"
    check "and the units of systemd" diff -r "$clone/deploy" "$at/under/share/oldstyle/deploy"
    check "and the package of R with the samples" cmp "$clone/examples/samples.journal" \
        "$at/under/share/oldstyle/r/inst/extdata/samples.journal"
    words=(install)
    run PATH=/usr/bin:/bin "HOME=$at/home"
    check "with no folder it goes to ~/.local" test -x "$at/home/.local/bin/oldstyle"
    check "and says that this is not on the PATH" says "$at/home/.local/bin is not on the PATH"
    words=(install below)
    run PATH=/usr/bin:/bin
    check "a folder goes from where it was typed" test -x "$at/here/below/bin/oldstyle"
    words=(install /dev/null)
    run PATH=/usr/bin:/bin
    check "a folder that can't be written is refused" ends_with 125
    check "with the next step" says "name a folder that you may write to"
    try_uninstall
    rm -rf "$clone"
    status=0
    (cd "$at/here" && "$at/under/bin/oldstyle" one two <<< "a line") > "$at/out" || status=$?
    check "the program needs nothing of the clone" is_run ""
}
