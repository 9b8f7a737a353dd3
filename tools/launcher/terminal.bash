# shellcheck shell=bash  # part of `oldstyle`
# Writes one line on a terminal over and over.
has_text=""

# Returns whether standard error is a terminal on which a line can be written over. No other control
# character than a carriage return is written, and none if colours are switched off.
has_line() { [ -t 2 ] && [ "${TERM:-dumb}" != dumb ] && [ -z "${NO_COLOR:-}" ]; }

# Leaves the last column free, since a terminal may begin a line there.
write_line() {
    local size
    size=$(stty size <&2 2> /dev/null) || true
    size=${size##* }
    size=$((${size:-0} > 1 ? size - 1 : 79))
    printf '\r%-*.*s' "$size" "$size" "$*" >&2
    has_text=yes
}

clear_line() {
    [ -n "$has_text" ] || return 0
    write_line ""
    printf '\r' >&2
    has_text=""
}

clock() { printf '%d:%02d' $(((SECONDS - $1) / 60)) $(((SECONDS - $1) % 60)); }
