# shellcheck shell=bash disable=SC2034,SC2154  # part of `oldstyle`
# Checks whether the program is the one that was proved and built from the current sources. The
# stamp beside it has the sum of their contents, that of the program, and the kit that proved it.

# Prints the lines of crates.txt that name the program and the crates that it depends on, unchanged
# and lowest first.
needed_lines() {
    awk -F: '
        /^[a-z]/ { line[++lines] = $0; name[lines] = $1; below[lines] = $2 }
        END {
            needed["oldstyle"]
            for (at = lines; at >= 1; at--)
                if (name[at] in needed) {
                    count = split(below[at], names, " ")
                    for (i = 1; i <= count; i++) needed[names[i]]
                }
            for (at = 1; at <= lines; at++) if (name[at] in needed) print line[at]
        }' crates.txt
}

# Sets `needed`, the lines above, `crates`, and `sources`: the files and folders that the program is
# made from.
find_sources() {
    local crate part
    mapfile -t needed < <(needed_lines)
    crates=("${needed[@]%%:*}")
    sources=(HANDLES)
    for crate in "${crates[@]}"; do
        for part in "crates/$crate"/*; do
            [[ $part =~ /(out|must-fail)$ ]] || sources+=("$part")
        done
    done
}

# Prints the sum of the sources below the current folder, with their names, the list of crates and
# the kits that the repository names. Dates and rights make no difference, nor does a link in place
# of what it leads to.
sum_of_sources() {
    {
        printf '%s\n' "${kits[@]}" "${needed[@]}"
        find -L "${sources[@]}" -type f -exec b2sum {} + | LC_ALL=C sort
    } | b2sum
}

is_built() {
    local of_sources="" of_program=""
    [ -x "$program" ] || return 1
    if [ -r "$stamp" ]; then
        { read -r of_sources && read -r of_program; } < "$stamp" || true
    fi
    if [ "$of_program" = "$(b2sum < "$program")" ]; then
        [ "$of_sources" = "$(sum_of_sources)" ]
    else
        is_newer && take_over
    fi
}

# Returns whether no source was changed since the program was built, is gone (its folder changed),
# or was put there with an old date (its status changed). A link is asked, and what it leads to.
is_newer() {
    local follow
    [ -z "$(for follow in -P -L; do
        find $follow crates.txt "${sources[@]}" \
            \( -newer "$program" -o -cnewer "$program" \) -print -quit
    done)" ]
}

# Takes the program over that `rt` itself left there, once it proved and built it in this folder:
# its date alone says that, and no kit is named.
take_over() { write_stamp "$(sum_of_sources)" "" 2> /dev/null || true; }

# write_stamp SUM KIT: for the program, as proved from the sources of this sum by this kit.
write_stamp() {
    printf '%s\n' "$1" "$(b2sum < "$program")" "$2" > "$stamp.new" &&
        mv -f "$stamp.new" "$stamp"
}
