# shellcheck shell=bash
# Parts of a run that are counted together. To be sourced by bash after `cd` to the project's root.
#
#   part NAME COMMAND..   runs a part, shows what it prints, and adds what its last line counts
#   must NAME COMMAND..   runs what the parts need: a failure ends the run
#   finish                the table of all parts, then the last line over them; the exit status is 0 only if all passed
#
# A part's own last line is `N passed, M failed`. Each command is printed as it can be typed, with its place among the steps of
# the script, so that a part can be run alone. Below the table, a line `to repeat: COMMAND  # WORDS` for each part that failed
# gives its command once more; such lines of a part stand there too, since they name what failed in it.

passed=0
failed=0
step=0
# the script may have been called by a path that starts where it was before its `cd`
script=${OLDPWD:-.}/$0
[ -f "$script" ] || script=$0
script=$(realpath --relative-to=. "$script")
steps=$(grep -cE '^ *(part|must) ' "$script")
table=()
broken=()

finish() {
    printf '%-24s %8s %8s %8s\n' part passed failed seconds "${table[@]}"
    if [ "${#broken[@]}" -gt 0 ]; then
        echo "Each command below runs alone, from the project's root. It may need what the parts before it have left"
        echo "below target/ and in crates/*/out/; rt ci clears the latter."
        printf '%s\n' "${broken[@]}"
    fi
    echo "$passed passed, $failed failed"
    [ "$passed" -gt 0 ] && [ "$failed" -eq 0 ]
    exit
}

fail() { # WHAT
    echo "FAIL $1"
    failed=$((failed + 1))
}

# A command as it can be typed: a word stands in quotes only where it has to.
typed() { # COMMAND..
    local word words=()
    for word; do
        [[ $word =~ ^[A-Za-z0-9_./=,:@%+-]+$ ]] || word=${word@Q}
        words+=("$word")
    done
    echo "${words[*]}"
}

say() { # WHAT COMMAND..
    step=$((step + 1))
    echo "[$step of $steps] $1: $(typed "${@:2}")"
}

# What a part has come to, for the table.
note() { # NAME PASSED FAILED SECONDS COMMAND..
    table+=("$1" "$2" "$3" "$4")
    [ "$3" -eq 0 ] || broken+=("to repeat: $(typed "${@:5}")  # $1, a part of $script")
}

must() { # NAME COMMAND..
    local name=$1
    shift
    say "$name" "$@"
    "$@" || {
        fail "$name: ended with status $?"
        note "$name" 0 1 0 "$@"
        finish
    }
}

part() { # NAME COMMAND..
    local name=$1 said status last before=$failed start=$SECONDS good=0
    shift
    say "$name" "$@"
    said=$(mktemp)
    "$@" 2>&1 | tee "$said"
    status=${PIPESTATUS[0]}
    last=$(tail -n 1 "$said")
    if [[ ! $last =~ ^([0-9]+)\ passed,\ ([0-9]+)\ failed$ ]]; then
        fail "$name: ended with status $status, without its last line"
    else
        good=${BASH_REMATCH[1]}
        passed=$((passed + good))
        failed=$((failed + BASH_REMATCH[2]))
        if [ "$status" -ne 0 ] && [ "${BASH_REMATCH[2]}" -eq 0 ]; then
            fail "$name: ended with status $status"
        fi
    fi
    [ "$failed" -eq "$before" ] || mapfile -t -O "${#broken[@]}" broken < <(grep '^to repeat: ' "$said")
    rm -f "$said"
    note "$name" "$good" "$((failed - before))" "$((SECONDS - start))" "$@"
}
