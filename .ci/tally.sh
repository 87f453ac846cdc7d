# For scripts that count their checks: sourced by them. Such a script ends by `finish`, with the line
# 'N passed, M failed' and an exit status that is 0 only if M is 0 and N is not.

# Text is sorted and compared, which some locales upset.
export LC_ALL=C

passed=0
failed=0

pass() { passed=$((passed + 1)); }

fail() { # WHAT
    failed=$((failed + 1))
    printf 'FAILED: %s\n' "$1"
}

# Says what is left out, and for lack of what: names, one to a line.
skip() { # WHAT LACKING
    printf '%s: skipped for lack of %s\n' "$1" "${2//$'\n'/ and }"
}

# Runs a command that is one check.
checked() { # COMMAND...
    local status=0
    "$@" || status=$?
    if [ "$status" -eq 0 ]; then pass; else fail "$*: exit status $status"; fi
}

# Makes the folder $scratch for temporary files, which goes with the script.
make_scratch() {
    scratch=$(mktemp -d) || {
        fail 'no folder for temporary files'
        finish
    }
    trap 'rm -rf "$scratch"' EXIT
}

# Runs a command and shows what it writes; keeps its standard output in $scratch/out.
shown() { # COMMAND...
    "$@" | tee "$scratch/out"
    return "${PIPESTATUS[0]}"
}

# Runs a command whose last line is 'N passed, M failed' and adds that up. A command that has passed
# nothing, or whose exit status does not agree with that line, counts as one failure.
tallied() { # COMMAND...
    local status=0 line number='(0|[1-9][0-9]{0,8})'
    shown "$@" || status=$?
    line=$(tail -n 1 "$scratch/out")
    if ! [[ $line =~ ^$number\ passed,\ $number\ failed$ ]]; then
        fail "$*: exit status $status, and the last line is not 'N passed, M failed'"
    elif [ "$status" -eq 0 ] && [ "${BASH_REMATCH[1]}" -gt 0 ] && [ "${BASH_REMATCH[2]}" -eq 0 ]; then
        passed=$((passed + BASH_REMATCH[1]))
    elif [ "$status" -ne 0 ] && [ "${BASH_REMATCH[2]}" -gt 0 ]; then
        passed=$((passed + BASH_REMATCH[1]))
        failed=$((failed + BASH_REMATCH[2]))
    else
        fail "$*: exit status $status with '$line'"
    fi
}

finish() {
    [ $((passed + failed)) -gt 0 ] || fail 'nothing was run'
    printf '%d passed, %d failed\n' "$passed" "$failed"
    [ "$failed" -eq 0 ]
    exit
}
