# shellcheck shell=bash disable=SC2034,SC2154  # part of `oldstyle`
# Proves and builds the program: `rt ci` of the Rattle kit proves a copy of the program's crates
# side by side, without tests and mutants, and keeps what it proved. Standard error says how far it
# is.
declare -gA functions=() since=() is_proved=()
all=0
proved=0
room=""
answer=""
copied=""
prover=""
built_by=""

need_kit() {
    if ! command -v rt > /dev/null; then
        say "the program is not built, or its sources have changed since, and the Rattle kit" \
            "that builds it is missing:"
        say "there is no command rt on the PATH. The kit is a folder with Rattle's compiler" \
            "and prover, made for Linux"
        say "on x86-64; it is not part of this repository, and comes from those who publish" \
            "Rattle. You need"
        refuse "$(known_kits). Put its folder bin on the PATH; START-HERE.md in the kit says more."
    fi
    built_by=$(rt version 2> /dev/null) || true
    is_known_kit ||
        say "warning: this kit is ${built_by:-unknown}; the program is proved with $(known_kits)"
}

known_kits() {
    local names
    printf -v names ' or %s' "${kits[@]%% *}"
    echo "${names# or }"
}

is_known_kit() { [[ " ${kits[*]%% *} " == *" ${built_by%% *} "* ]]; }

# Makes the copy, a repository of its own, and a folder for what `rt` has for a while: as root it
# runs the program there, as nobody. The copy's list of crates gives the program its date, and is
# older than each source that is changed from now on.
copy_sources() {
    local crate of_crate
    if [ ! -w crates/oldstyle ] || { [ -e "$out" ] && [ ! -w "$out" ]; }; then
        refuse "the program is not built, and this folder can't be written, $top:" \
            "copy it to a place of your own, and start ./oldstyle there"
    fi
    # shellcheck disable=SC2015  # (`give_up` never follows what went well)
    mkdir -p "$out" && room=$(mktemp -d "${TMPDIR:-/tmp}/oldstyle.XXXXXX") &&
        answer=$room/answer && mkdir -m 700 "$answer" &&
        mkdir -p "$room/copy/.git" "$room/temporary" && open_room &&
        printf '%s\n' "${needed[@]}" > "$room/copy/crates.txt" &&
        cp -RL --parents "${sources[@]}" "$room/copy" &&
        copied=$(cd "$room/copy" && sum_of_sources) ||
        give_up "the crates can't be copied to ${room:-a temporary folder}"
    for crate in "${crates[@]}"; do
        of_crate=$(grep -RhE '^ *(pub(\(.*\))? )?(const )?fn ' "crates/$crate/src" | wc -l)
        functions["$crate"]=$of_crate
        all=$((all + of_crate))
    done
}

# Lets `rt` run the program as nobody, which it does for root. Questions and answers are in a folder
# that nobody else can enter even so.
open_room() { [ "$(id -u)" != 0 ] || chmod 711 "$room" "$room/temporary"; }

# `rt` locks a crate's folder while it works there. What is started from here holds the lock too.
wait_for_turn() {
    exec {turn}< crates/oldstyle
    flock -n "$turn" && return
    say "waiting until another run in this folder has built the program"
    until flock -n "$turn"; do
        attend
        sleep 1
    done
}

# Starts the proof in a session of its own. While an answer is prepared it has a lower priority: of
# the session if the system shares processors out by sessions, otherwise of the processes.
start_proof() {
    local way=()
    [ -z "$reader$tried" ] || way=(nice -n 10)
    # shellcheck disable=SC2016  # (the words are those of the shell inside)
    TMPDIR=$room/temporary setsid "${way[@]}" bash -c '
        cd "$1" || exit
        [ -z "$2" ] || { echo 10 > /proc/self/autogroup; } 2> /dev/null
        exec rt ci' oldstyle "$room/copy" "${way[*]}" >> "$log" 2>&1 < /dev/null &
    prover=$!
}

# Lets the proof have its share of the processors again, once nothing waits for the answer.
share_evenly() {
    [ -z "$prover" ] || { echo 0 > "/proc/$prover/autogroup"; } 2> /dev/null || true
}

prove() {
    local status=0
    : > "$log" || give_up "$log can't be written"
    say "proving ${#crates[@]} crates with $all functions, and building the program"
    began=$SECONDS
    start_proof
    while ! has_ended "$prover"; do
        show_progress
        attend
        # (of the others, those that are proved by now are kept)
        ! grep -qs "NOT PROVED" "$log" || end_process "$prover"
        sleep 1
    done
    wait "$prover" || status=$?
    prover=""
    show_progress
    [ "$status" = 0 ] || give_up "$(what_failed); all output is in $log"
    take_program || give_up "it can't be put in its place, $program"
    say "built in $(clock "$began") minutes by ${built_by:-an unknown kit};" \
        "the next run starts at once"
}

take_program() {
    cp "$room/copy/crates/oldstyle/out/oldstyle" "$program.new" &&
        touch -r "$room/copy/crates.txt" "$program.new" && mv -f "$program.new" "$program" &&
        write_stamp "$copied" "$built_by"
}

# Reports each crate that is proved, or on a terminal on one line what is done and at work.
show_progress() {
    local crate at_work=""
    while read -r crate; do
        [ -z "${is_proved["$crate"]:-}" ] || continue
        is_proved["$crate"]=yes
        proved=$((proved + functions["$crate"]))
        has_line || say "$crate is proved: $proved of $all functions, $(clock "$began") minutes"
    done < <(sed -n 's/^rt: \([a-z_]*\) \(proved\|is kept:.*\)$/\1/p' "$log")
    has_line || return 0
    for crate in "${crates[@]}"; do
        if [ -z "${is_proved["$crate"]:-}" ] && [ -d "$room/copy/crates/$crate/out" ]; then
            since["$crate"]=${since["$crate"]:-$SECONDS}
            at_work+=", ${crate#osn_} $(clock "${since["$crate"]}")"
        fi
    done
    write_line "oldstyle: $proved of $all functions proved, $(clock "$began");" \
        "at work: ${at_work#, }"
}

# Prints which crate is not proved, and on standard error the errors of its proof.
what_failed() {
    local crate
    clear_line
    crate=$(sed -n 's/^rt: \([a-z_]*\) NOT PROVED$/\1/p' "$log" | head -n 1)
    if [ -n "$crate" ]; then
        sed -n "/^== $crate\$/,/^rt: $crate NOT/p" "$log" |
            grep -E 'error|not proved|^rt: ' | head -n 20 >&2
        echo "the proof of $crate is refused"
    else
        tail -n 20 "$log" >&2
        echo "rt ended with status $status"
    fi
}

# Ends with the reason that is given, or that a disk is full.
give_up() {
    local why=$1
    if grep -qis "no space left\|the disk is full" "$log" ||
        [ -n "$(df -Pk . "${room:-${TMPDIR:-/tmp}}" | awk 'NR > 1 && $4 < 16384')" ]; then
        why="the disk is full"
    fi
    refuse "the program is not built: $why"
}
