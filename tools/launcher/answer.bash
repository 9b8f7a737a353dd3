# shellcheck shell=bash disable=SC2034,SC2154  # part of `oldstyle`
# Answers before the proof: `rt try` of the kit runs the program without one, with checks while it
# runs. Once the program is built it answers the same again, and both answers must agree.
most=1048576
takes_some=""
reader=""
tried=""
answered=""
files=()
words=()
data=()
typed=()
feeder=""
runs=""
closed=""

# why_no_answer ARGUMENT..: prints why these arguments get no answer before the proof, if they get
# none.
why_no_answer() {
    local file
    if ! only_reads "$@"; then
        echo "one is given to read, convert, day, month, year, territory, editions, diff, almanac," \
            "letters, text, check, plan, audit, replay, completions, and serve without --save," \
            "--keep and --follow"
    elif takes_input "$@" && [ -t 0 ]; then
        echo "the input is a terminal; give it as < FILE, or by a pipe"
    elif [ -n "$closed" ]; then
        echo "standard input or output is closed"
    elif reads_default "$@"; then
        echo "the arguments name no journal, and only the proved program reads the default one"
    elif takes_input "$@" && [ -f /dev/fd/0 ] && [ "$(stat -L -c %s /dev/fd/0)" -gt $most ]; then
        echo "the input has more than 1 MiB"
    else
        while read -r -d '' file; do
            if [ ! -f "$file" ]; then
                echo "${file@Q} is not a regular file"
                return
            fi
        done < <(named_files "$@")
    fi
}

only_reads() {
    local word
    for word in "$@"; do
        [[ ! $word =~ ^--(save|keep|follow)(=|$) ]] || return 1
    done
    case ${1:-} in
        "" | read | convert | day | month | year | territory | editions | diff | almanac) ;;
        letters | text | check | plan | audit | replay | serve | completions | help) ;;
        *) asks_help "$@" ;;
    esac
}

asks_help() {
    local word
    for word in "$@"; do
        [[ ! $word =~ ^(--help|-h|--version|-V)$ ]] || return 0
    done
    return 1
}

# Returns whether the arguments ask for standard input, as `read` does if its date is -.
takes_input() {
    [[ ${1:-} =~ ^(|serve|letters)$ || "$* " == "read "*" - "* ]] && ! asks_help "$@"
}

# Returns whether the arguments leave out the journal, which the environment or the user's folder
# names: the program gets neither while it is tried.
reads_default() {
    local own=${XDG_DATA_HOME:-${HOME:-}/.local/share}/oldstyle/register.journal
    [[ ${1:-} =~ ^(read|day|month|year|territory|editions|diff|almanac|letters|text|plan)$ ]] || return 1
    [[ " ${*:2} " != *" --journal"[\ =]* ]] && ! asks_help "$@" || return 1
    if [ "$1" = plan ]; then
        [ "$(plain_words "${@:2}")" = 1 ]
        return
    fi
    (cd "$from" && [ ! -e "${2:-}" ] && { [ -n "${OLDSTYLE_JOURNAL:-}" ] || [ -e "$own" ]; })
}

# Prints how many of these words are neither options nor the value of --limits.
plain_words() {
    local word before="" number=0
    for word in "$@"; do
        [[ $word == -* || $before == --limits ]] || number=$((number + 1))
        before=$word
    done
    echo "$number"
}

# Prints each file that is there and that an argument after the command names, ended by a zero byte.
named_files() {
    local word
    for word in "${@:2}"; do
        [[ $word != --*=* ]] || word=${word#*=}
        word=$(cd "$from" && [ -e "$word" ] && realpath -s -- "$word") || continue
        printf '%s\0' "$word"
    done
}

# Begins to read the input, if the arguments take one; the answer follows once it has ended.
prepare_answer() {
    mapfile -d '' -t files < <(named_files "$@")
    before=$(sum_of_files)
    place_files "$@"
    if takes_input "$@"; then
        exec {given}<&0
        dd bs=64K iflag=count_bytes count=$((most + 1)) status=none <&"$given" > "$answer/input" &
        reader=$!
        takes_some=yes
    else
        : > "$answer/input"
        start_answer
    fi
}

sum_of_files() { cat -- /dev/null "${files[@]}" 2> /dev/null | sha256sum; }

# Sets `words`, the arguments that the program gets while it is tried, and `data`. It is tried in a
# new folder: a file gets there by its name, or the argument gives the whole path.
place_files() {
    local word file
    words=("${@:1:1}")
    for word in "${@:2}"; do
        file=$word
        [[ $word != --*=* ]] || file=${word#*=}
        if [[ $file != /* ]] && [ -f "$from/$file" ]; then
            if [[ /$file =~ (/\.\.?/|//|=|^/(program|std)) ]]; then
                word=${word%"$file"}$from/$file
                typed+=("$file")
            else
                data+=(--data "$file=$from/$file")
            fi
        fi
        words+=("$word")
    done
}

start_answer() {
    (cd "$room/copy/crates/oldstyle" && TMPDIR=$room/temporary \
        exec rt try "${data[@]}" -- "${words[@]}") \
        < "$answer/input" > "$answer/output" 2> "$answer/stderr" &
    tried=$!
}

# Starts the answer once the input has ended, and shows it once it is there.
attend() {
    if [ -n "$reader" ] && has_ended "$reader"; then
        reader=""
        if [ "$(stat -c %s "$answer/input")" -le $most ]; then
            start_answer
        else
            share_evenly
            say "no answer before the proof: the input has more than 1 MiB"
        fi
    fi
    if [ -n "$tried" ] && has_ended "$tried"; then
        take_answer
    fi
}

take_answer() {
    local status=0
    wait "$tried" || status=$?
    tried=""
    share_evenly
    if ! grep -q '^run=ended ' "$answer/stderr"; then
        say "no answer before the proof: $(sed -n 's/^checked: no-answer: //p' "$answer/stderr" |
            grep . || echo "rt try ended with status $status")"
        return
    fi
    answered=$status
    program_errors > "$answer/errors"
    clear_line
    cat "$answer/output" 2> /dev/null || true
    cat "$answer/errors" >&2
    say "this answer is not proved yet: the proof of $all functions takes tens of minutes on" \
        "$(nproc) processors, and the program then answers again; Ctrl-C ends it until the next run"
}

# Prints what the program wrote on standard error, with the arguments as they were typed.
program_errors() {
    local text file
    text=$(sed -e '/^checked: ended/,$d' -e '/^rt: /d' "$answer/stderr")
    for file in "${typed[@]}"; do
        text=${text//"$from/$file"/"$file"}
    done
    [ -z "$text" ] || echo "$text"
}

# answer_again ARGUMENT..: lets the program answer the same, and ends with its status if both agree.
answer_again() {
    local status=0 folder=$out/answers
    if [ "$before" != "$(sum_of_files)" ]; then
        say "built; a file that the arguments name was changed since the answer, which is not" \
            "compared"
        exit "$answered"
    fi
    (cd "$from" && exec "$program" "$@") \
        < "$answer/input" > "$answer/proved_output" 2> "$answer/proved_errors" || status=$?
    if [ "$status" = "$answered" ] && cmp -s "$answer/output" "$answer/proved_output" &&
        cmp -s "$answer/errors" "$answer/proved_errors"; then
        say "the program, now proved, gives the same answer"
        exit "$status"
    fi
    rm -rf "$folder" && mkdir -m 700 "$folder" &&
        cp "$answer/output" "$answer/errors" "$answer"/proved_* "$folder"
    refuse "the program, now proved, gives ANOTHER ANSWER, with status $status for $answered:" \
        "compare output and errors with proved_output and proved_errors in $folder"
}

# run_on_input ARGUMENT..: runs the program on what was read by now and on what follows.
run_on_input() {
    local status=0
    trap 'exit 130' INT TERM HUP PIPE
    exec {turn}<&-
    [ -z "$reader" ] || ! has_ended "$reader" || reader=""
    mkfifo "$answer/pipe"
    feed > "$answer/pipe" &
    feeder=$!
    (cd "$from" && exec env --default-signal=INT,QUIT "$program" "$@") < "$answer/pipe" &
    runs=$!
    wait "$runs" || status=$?
    runs=""
    exit "$status"
}

# Passes on what was read, for as long as it is being read, and then what is left.
feed() {
    local part
    local follow=()
    [ -z "$reader" ] || follow=(-f -s 0.1 --pid="$reader")
    trap 'kill "$part"; exit' TERM
    tail -c +1 "${follow[@]}" "$answer/input" &
    part=$!
    wait "$part" || return
    cat <&"$given" &
    part=$!
    wait "$part"
}
