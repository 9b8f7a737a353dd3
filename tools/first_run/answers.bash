# shellcheck shell=bash disable=SC2154  # part of `try`
# Tries the answers that come before the proof.

is_at_work() { ! has_proved "$crates"; }
has_answer() { [ -s "$at/out$1" ]; }
goes_before() { [ "$(sed -n "/$1/=" "$at/err")" -lt "$(sed -n "/$2/=" "$at/err")" ]; }

had_lower_priority() { [ "$(cat "$FAKE_STORE/priority")" -gt "$(ps -o ni= -p $$)" ]; }
kept_priority() { ! had_lower_priority; }

# Takes away what is built and kept, so that the next run is a first one.
forget() {
    rm -rf "$clone/crates/oldstyle/out" "$FAKE_STORE"/*
    touch "$FAKE_STORE/trace"
}

try_answers() {
    new_clone answers
    mkdir "$at/far"
    echo "file two" > "$at/far/two"
    cp "$at/here/one" "$at/here/with space"
    words=(read one "with space" ../far/two ./one "$at/far/two" --unreadable=one
        --unreadable=../far/two)
    words+=(status=3)
    run FAKE_PAUSE=0.1
    check "what only reads is answered before the proof" goes_before "not proved yet" "built in"
    check "once, with the files that the arguments name" gives "" "$(printf '%s\n' "word: read" \
        "word: one" "file one" "word: with space" "file one" "word: two" "file two" "word: one" \
        "file one" "word: two" "file two" "word: --unreadable=one" "word: two" "word: status=3")"
    check "with the program's status" ends_with 3
    check "and what it wrote to standard error" says_once "^oldstyle: one: permission denied"
    check "as it was typed" says_once "^oldstyle: ../far/two: permission denied"
    check "it is said once that this is not proved yet" says_once "not proved yet"
    check "and that the program gives the same" says_once "now proved, gives the same answer"
    check "with nothing at work and nothing left" is_clean
    check "the proof had a lower priority" had_lower_priority
    run PATH=/usr/bin:/bin
    check "the next run gives the same alone" says_once "^oldstyle: ../far/two: permission denied"
    forget
    start ""
    await has_answer ""
    check "the answer is there while the proof is at work" is_at_work
    end_started
    check "and ends with the program's status" ends_with 3
    forget
    words=(desk --help)
    run FAKE_PAUSE=0.1
    check "help is answered too" says_once "gives the same answer"
}

try_help() {
    local word text
    new_clone help
    mkdir -p "$clone/crates/osn_cases/data"
    printf '%s\n' "# Help." "" "== --version" "" "\$ oldstyle --version" "oldstyle 1" "" \
        "== --help" "" "\$ oldstyle --help" "Usage" "" "Options" "" "== read" "" \
        "\$ oldstyle read --help" "Other" > "$clone/crates/osn_cases/data/help.cases"
    for word in --help -h help --version -V; do
        text=$'Usage\n\nOptions'
        [[ $word != *[vV]* ]] || text="oldstyle 1"
        words=("$word")
        run PATH=/usr/bin:/bin
        check "$word ends with 0, without a kit and a proof" ends_with 0
        check "and says nothing" says_nothing
        check "but the text of its case" gives "" "$text"
    done
    rm "$clone/crates/osn_cases/data/help.cases"
    words=(--version)
    run FAKE_PAUSE=0.1
    check "without such a case it is answered by a run" says_once "gives the same answer"
}

has_input() { test -s "$TMPDIR"/oldstyle.*/answer/input; }
has_mode() { [ "$(stat -c %a "$TMPDIR"/oldstyle.*/"$1")" = "$2" ]; }

try_private() {
    local other
    new_clone private
    words=(serve)
    start ""
    await has_input
    check "what is piped in is its owner's alone" has_mode answer 700
    check "and so is the folder, but that root's may be gone through" \
        has_mode . "$([ "$(id -u)" = 0 ] && echo 711 || echo 700)"
    end_started
    sleep 100 &
    other=$!
    check "a number that is another's process has ended" signal_of "has_ended $other"
    check "and gets no signal" signal_of "end_process $other"
    check "and lives" kill -0 "$other"
    check "one of its own is alive" signal_of 'sleep 100 & ! has_ended $!'
    check "and gets a signal" signal_of 'sleep 100 & end_process $!; ! wait $!; has_ended $!'
    kill "$other"
}

# signal_of COMMANDS: by the launcher's own words for processes.
signal_of() { bash -c '. "$0"; eval "$1"' "$clone/tools/launcher/first_run.bash" "$1"; }

# run_on FILE NAME=VALUE..: with the file as input.
run_on() {
    status=0
    (cd "$at/here" && env "PATH=$tools:$PATH" "${@:2}" "$clone/oldstyle" "${words[@]}") \
        < "$1" > "$at/out" 2> "$at/err" || status=$?
}

# Sends a line, and the next one once that was replied.
converse() {
    local reply
    mkfifo "$at/requests" "$at/replies"
    (cd "$at/here" && PATH=$tools:$PATH FAKE_PAUSE=0.1 exec "$clone/oldstyle" serve) \
        < "$at/requests" > "$at/replies" 2> "$at/err" &
    started=$!
    exec {requests}> "$at/requests" {replies}< "$at/replies"
    echo first >&"$requests"
    read -r -t 600 reply <&"$replies" && [ "$reply" = "word: serve" ] || return
    read -r -t 600 reply <&"$replies" && [ "$reply" = first ] || return
    echo second >&"$requests"
    read -r -t 600 reply <&"$replies" && [ "$reply" = second ] || return
    exec {requests}>&-
    end_started
    ends_with 0
}

try_inputs() {
    new_clone inputs
    words=(serve)
    run FAKE_PAUSE=0.1
    check "a pipe is answered before the proof" goes_before "not proved yet" "built in"
    check "once" gives "" $'word: serve\na line'
    forget
    run_on "$at/here/one" FAKE_PAUSE=0.1
    check "a file is answered before the proof" goes_before "not proved yet" "built in"
    check "at a higher priority than the proof" had_lower_priority
    check "once" gives "" $'word: serve\nfile one'
    forget
    head -c 1048576 /dev/zero > "$at/here/most"
    head -c 1048577 /dev/zero > "$at/here/more"
    run_on "$at/here/most" FAKE_PAUSE=0.1
    check "so is one of 1 MiB" says_once "gives the same answer"
    forget
    run_on "$at/here/more"
    check "but none of more" says_once "no answer before the proof: the input has more than 1 MiB"
    check "which the program reads whole" cmp "$at/out" <(echo "word: serve" && cat "$at/here/more")
    forget
    run_on <(cat "$at/here/more" && sleep 2 && echo more) FAKE_PAUSE=0.1
    check "nor a pipe with more" says_once "the proof: the input has more than 1 MiB"
    check "which the program reads whole" \
        cmp "$at/out" <(echo "word: serve" && cat "$at/here/more" && echo more)
    forget
    check "a client that waits for replies is served once the program is built" converse
    check "with nothing at work and nothing left" await is_clean
}

run_closed() {
    status=0
    (cd "$at/here" && env "PATH=$tools:$PATH" "$clone/oldstyle" serve) \
        > "$at/out" 2> "$at/err" <&- || status=$?
}

# The program gets no variable and no folder of the user while it is tried.
try_default() {
    forget
    words=(read RM 1500-01-01)
    run OLDSTYLE_JOURNAL=one
    check "so does what leaves out a journal that the environment names" \
        says_once "the arguments name no journal"
    forget
    mkdir -p "$at/here/oldstyle"
    touch "$at/here/oldstyle/register.journal"
    run XDG_DATA_HOME=.
    check "or that is the user's own" says_once "the arguments name no journal"
    forget
    run XDG_DATA_HOME=elsewhere
    check "but not if there is none" says_once "gives the same answer"
    forget
    words=(read one 1500-01-01)
    run OLDSTYLE_JOURNAL=one
    check "nor if the first word names a file" says_once "gives the same answer"
    forget
    words=(read RM 1500-01-01 --journal one)
    run OLDSTYLE_JOURNAL=two
    check "nor if the option names one" says_once "gives the same answer"
}

try_no_answers() {
    new_clone no_answers
    words=(serve --save kept)
    run
    check "what writes waits for the proof" says_once "no answer before the proof: one is given to"
    check "and runs then" gives "" $'word: serve\nword: --save\nword: kept\na line'
    check "after a proof of usual priority" kept_priority
    forget
    run_closed
    check "so does what has no standard input" says_once "standard input or output is closed"
    forget
    mkfifo "$at/here/pipe"
    words=(read pipe)
    run
    check "so does what names a pipe" says_once "is not a regular file"
    try_default
    forget
    words=(read one)
    run FAKE_FAULT="the program wrote too much" FAKE_PAUSE=0.1
    check "and what the kit can't run" says_once "the proof: the program wrote too much"
    check "and runs then" gives "" $'word: read\nword: one\nfile one'
    forget
    run FAKE_OTHER=" but not the same" FAKE_PAUSE=0.1
    check "two answers that differ end it with 125" ends_with 125
    check "and are reported" says_once "ANOTHER ANSWER"
    check "and kept" grep -q "but not" "$clone/crates/oldstyle/out/answers/proved_output"
    check "both" grep -q "file one" "$clone/crates/oldstyle/out/answers/output"
    forget
    start ""
    await has_answer ""
    echo more >> "$at/here/one"
    end_started
    check "if a file was changed, they are not compared" says_once "changed since the answer"
    check "and the status is the first one's" ends_with 0
    forget
    run FAKE_TRY=60
    check "an answer that comes after the program is not awaited" gives "" \
        $'word: read\nword: one\nfile one\nmore'
    check "with nothing at work and nothing left" is_clean
}

try_interrupted_answers() {
    new_clone interrupted_answers
    words=(read one)
    start ""
    await has_answer ""
    kill -INT -- "-$started"
    end_started
    check "Ctrl-C after the answer ends it with 130" ends_with 130
    check "with nothing at work and nothing left" is_clean
    FAKE_TRY=60 start ""
    await has_proved $((crates * 2 / 3))
    kill -INT -- "-$started"
    end_started
    check "Ctrl-C before the answer ends both" is_clean
    run
    check "the next run gives the answer" gives "" $'word: read\nword: one\nfile one'
    check "and what was proved is not proved again" is_proved_once
    forget
    start 1
    local first=$started
    await test -d "$clone/crates/oldstyle/out"
    start 2
    await has_answer 2
    check "a run that waits for another has its answer too" is_at_work
    end_started
    check "and compares it" grep -q "gives the same answer" "$at/err2"
    started=$first
    end_started
    check "as the other" grep -q "gives the same answer" "$at/err1"
    check "and each crate is proved once" is_proved_once
}
