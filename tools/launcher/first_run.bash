# shellcheck shell=bash disable=SC2034,SC2154  # part of `oldstyle`
# The run that finds no program: an answer first, if one can be given, then the proof.

prove_alone() {
    begin
    wait_for_turn
    is_built || prove
    end
}

# first_run WORD..: ends with the program's status, or answers once the program is built.
first_run() {
    local why
    [ -e /proc/$$/fd/0 ] && [ -e /proc/$$/fd/1 ] || closed=yes
    begin
    why=$(why_no_answer "$@")
    if [ -z "$why" ]; then
        prepare_answer "$@"
    else
        say "no answer before the proof: $why"
    fi
    wait_for_turn
    is_built || prove
    if [ -n "$answered" ]; then
        answer_again "$@"
    elif [ -n "$takes_some" ]; then
        run_on_input "$@"
    fi
    end
}

begin() {
    need_kit
    trap interrupted INT TERM HUP PIPE
    trap clean_up EXIT
    copy_sources
}

end() {
    clean_up
    trap - INT TERM HUP PIPE EXIT
    exec {turn}<&-
}

interrupted() {
    trap '' INT TERM HUP PIPE
    say "interrupted; the next run keeps the crates that are proved"
    exit 130
}

# Returns whether a process of this script has ended. Its number may be another's from then on.
has_ended() { [[ " $(jobs -pr | tr '\n' ' ')" != *" $1 "* ]]; }

end_process() { has_ended "$1" || kill "$1" 2> /dev/null || true; }

# Ends what is at work: what `rt` started ends with it.
clean_up() {
    local process
    for process in $prover $tried $reader $feeder $runs; do
        end_process "$process"
    done
    for process in $prover $tried $reader $feeder $runs; do
        wait "$process" 2> /dev/null || true
    done
    prover="" tried="" reader="" feeder="" runs=""
    [ -z "$room" ] || rm -rf "$room" || { sleep 1 && rm -rf "$room"; }
    room=""
}
