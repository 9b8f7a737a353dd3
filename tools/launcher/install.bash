# shellcheck shell=bash disable=SC2154  # part of `oldstyle`
# Puts the program, its manual, the documents, the completions of shells, the clients in Python and
# R, the samples and the units of systemd under a folder, in which they need neither the kit nor this
# repository, and removes them again.
to=""
# Below the folder: names each file that was put there, this one too.
list=share/oldstyle/files.txt

# find_prefix install|uninstall [PREFIX]: sets the folder, by default ~/.local.
find_prefix() {
    local usage="./oldstyle $1 [FOLDER], such as /usr/local; without one it is ~/.local"
    case ${2:-} in
        --help | -h)
            [ $# != 2 ] || { echo "usage: $usage" && exit; }
            ;;
        --prefix=?*) refuse "$2 is not an option: write ./oldstyle $1 ${2#*=}" ;;
        -*) refuse "$2 is not an option: $usage" ;;
    esac
    [ $# -le 2 ] || refuse "$1 takes one folder or none: quote one that has spaces"
    to=${2:-${HOME:+$HOME/.local}}
    [ -n "$to" ] || refuse "there is no home folder: name a folder, such as /usr/local"
    [[ $to == /* ]] || to=$from/$to
}

install_program() {
    put_all && remove_older && mv -f "$to/$list.new" "$to/$list" ||
        refuse "it can't be installed under $to:" \
            "name a folder that you may write to, as ./oldstyle install FOLDER"
    say "installed under $to: bin/oldstyle, bin/oldstyle-web, bin/oldstyle-tei," \
        "bin/oldstyle-gedcom, share/man/man1/oldstyle.1, share/oldstyle/examples," \
        "share/oldstyle/deploy, share/oldstyle/r, share/doc/oldstyle and completions of bash, zsh" \
        "and fish"
    [[ :$PATH: == *":$to/bin:"* ]] ||
        say "$to/bin is not on the PATH: add it, or start $to/bin/oldstyle"
}

# put MODE FILE TARGET: puts a file below the folder, and lists it.
put() { install -D -m "$1" "$2" "$to/$3" && echo "$3" >> "$to/$list.new"; }

# put_completions SHELL TARGET: the program says how the shell completes its arguments.
put_completions() { "$program" completions "$1" | put 644 /dev/stdin "$2"; }

# put_folder FOLDER TARGET: puts the files of a folder, except those that Python and pip make.
put_folder() {
    local file
    while read -r -d '' file; do
        put 644 "$1/$file" "$2/$file" || return
    done < <(find "$1" -name __pycache__ -prune -o -name '*.egg-info' -prune \
        -o -type f -printf '%P\0')
}

# put_clients: puts the packages of Python and R, and a command for each program of the former.
put_clients() {
    local name
    put_folder clients/python/src share/oldstyle/python &&
        put_folder clients/web/src share/oldstyle/python &&
        put_folder clients/r share/oldstyle/r || return
    for name in oldstyle-web oldstyle-tei oldstyle-gedcom; do
        put 755 tools/launcher/client.py "bin/$name" || return
    done
}

# The samples' own scripts find the program beside their folder.
put_all() {
    local file mode
    mkdir -p "$to/${list%/*}" && echo "$list" > "$to/$list.new" &&
        put 755 "$program" bin/oldstyle &&
        put 644 docs/oldstyle.1 share/man/man1/oldstyle.1 &&
        put_completions bash share/bash-completion/completions/oldstyle &&
        put_completions zsh share/zsh/site-functions/_oldstyle &&
        put_completions fish share/fish/vendor_completions.d/oldstyle.fish &&
        put_clients || return
    for file in CHANGELOG.md docs/*.md; do
        put 644 "$file" "share/doc/oldstyle/${file#docs/}" || return
    done
    while read -r -d '' file; do
        mode=644
        [ ! -x "$file" ] || mode=755
        put $mode "$file" "share/oldstyle/$file" || return
    done < <(find examples deploy -name __pycache__ -prune -o -type f -print0)
    ln -sfn ../../bin/oldstyle "$to/share/oldstyle/oldstyle" &&
        echo share/oldstyle/oldstyle >> "$to/$list.new"
}

# Removes what an older version put there and this one no longer has.
remove_older() {
    [ ! -e "$to/$list" ] || remove < <(LC_ALL=C comm -23 \
        <(LC_ALL=C sort "$to/$list") <(LC_ALL=C sort "$to/$list.new"))
}

# Removes the listed files, and the folders below the folder that are empty then.
remove() {
    local file
    while read -r file; do
        [[ /$file/ != */../* ]] || continue
        rm -f -- "$to/$file" || return
        [ ! -d "$to/${file%/*}" ] ||
            (cd "$to" && rmdir -p --ignore-fail-on-non-empty -- "${file%/*}") || return
    done
}

uninstall_program() {
    local files
    [ -e "$to/$list" ] || refuse "nothing is installed under $to: $to/$list is not there"
    mapfile -t files < "$to/$list"
    printf '%s\n' "${files[@]}" | remove || refuse "it can't be removed from $to"
    say "removed from $to: ${#files[@]} files"
}
