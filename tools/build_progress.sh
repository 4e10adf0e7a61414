#!/usr/bin/env bash
# Tells how far a build is, from what 'rt all check' and then 'rt run' write: ./tracesmb shows it on standard error.
#
#     rt .. 2>&1 | tools/build_progress.sh CRATE..     the crates of the build, each after those that it stands on
#
# There is a line for each crate that is proved, and one a minute at least. Crates that were proved before have none, and count.
set -euo pipefail

crates=("$@")
declare -A lines=() state=() # of a crate: its lines of source; 'ended' where rt is through with it, 'proved' where it proved it now
left=0 proved=0              # lines of source
ended=0                      # crates
name='' within=''            # the crate that rt last spoke of, and how far that is
told=0                       # when the last line was written

say() { echo "tracesmb: $*"; }

count_lines() {
    cd "$(dirname "$(readlink -f "${BASH_SOURCE[0]}")")/../crates"
    local one
    for one in "${crates[@]}"; do
        lines[$one]=$(find "$one" -name out -prune -o \( -name '*.rt' -o -name '*.antt' \) -exec cat {} + | wc -l)
        left=$((left + lines[$one]))
    done
}

end() {
    [ -n "${lines[$1]-}" ] && [ -z "${state[$1]-}" ] || return 0
    state[$1]=ended left=$((left - lines[$1])) ended=$((ended + 1))
}

hear() {
    local one
    if [[ $1 =~ ^'rt: chose --jobs '[0-9]+' for '(.*)$ ]]; then # crates in turn: those before this one have ended
        name=${BASH_REMATCH[1]} within=''
        for one in "${crates[@]}"; do
            [ "$one" != "$name" ] || break
            end "$one"
        done
    elif [[ $1 =~ ^'== '(.*)$ ]]; then # crates side by side: this one has ended, and what rt said of it follows
        name=${BASH_REMATCH[1]} within=''
        end "$name"
    elif [[ $1 =~ ^('so far: '|'checked '.*', ')([0-9]+' of '[0-9]+) ]]; then
        within=", ${BASH_REMATCH[2]} functions of $name"
    elif [[ $1 =~ ^'crate '([^:]*)':' ]]; then
        name=${BASH_REMATCH[1]} within=''
    elif [[ $1 == 'logic=proved '* && ${state[$name]-} != proved ]]; then
        end "$name"
        state[$name]=proved proved=$((proved + ${lines[$name]-0}))
        tell "proved $name: "
    elif [[ $1 == 'logic=not-proved'* ]]; then
        say "$name is not proved"
    fi
}

tell() {
    say "${1-}$ended of ${#crates[@]} crates$within after $((SECONDS / 60)) min$(rest)"
    told=$SECONDS
}

# The time that is left, by the lines that were proved and those that are left, from once to twice: lines differ in what they take, and
# the last crates stand on one another. It is said once there is a tenth to go by.
rest() {
    local minutes=$((proved > 0 ? SECONDS * left / proved / 60 : 0))
    if [ "$left" -eq 0 ]; then
        echo "; the program is compiled"
    elif [ $((proved * 10)) -gt "$left" ] && [ "$minutes" -ge 5 ]; then
        echo "; about $(((minutes + 4) / 5 * 5)) to $(((2 * minutes + 4) / 5 * 5)) more"
    fi
}

count_lines
SECONDS=0 part=''
while true; do
    pause=$((60 - SECONDS + told))
    if IFS= read -r -t $((pause > 0 ? pause : 1)) line; then
        hear "$part$line"
        part=''
    elif [ $? -gt 128 ]; then
        part+=$line # (the minute ended within a line)
    else
        break
    fi
    [ $((SECONDS - told)) -lt 60 ] || tell
done
