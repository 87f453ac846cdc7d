# Counts instructions with valgrind. bench/instructions and bench/compare source this file; they set
# pipefail.

# The instructions that run inside one function of a program, from what callgrind reports.
instructions() { # FUNCTION PROGRAM ARGUMENT...
    local function=$1 count
    shift
    command -v valgrind >/dev/null || {
        echo 'valgrind is missing' >&2
        return 1
    }
    count=$(valgrind --tool=callgrind "--toggle-collect=$function" \
        --callgrind-out-file=/dev/null "$@" 2>&1 >/dev/null |
        sed -n 's/^==[0-9]*== Collected : \([0-9]*\).*/\1/p') && [ -n "$count" ] || {
        echo "valgrind counted nothing in $function of $*" >&2
        return 1
    }
    echo "$count"
}

# The second number for each one of the first.
ratio() { # NUMBER NUMBER
    awk -v one="$1" -v other="$2" 'BEGIN { printf "%.2f\n", other / one }'
}
