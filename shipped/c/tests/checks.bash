# Checks that are counted, to be sourced. A check that fails is named.
passed=0 failed=0

check() { # NAME WANTED GOT
    if [ "$2" = "$3" ]; then
        passed=$((passed + 1))
    else
        failed=$((failed + 1))
        printf 'failed: %s\n    wanted: %s\n    got:    %s\n' "$1" "${2//$'\n'/ / }" "${3//$'\n'/ / }" >&2
    fi
}

# A command that does what it should counts as one, and what it prints is told where it fails.
holds() { # NAME COMMAND...
    local said
    said=$("${@:2}" 2>&1)
    check "$1${said:+: $said}" 0 $?
}

# A program that counts its own checks in its last line, 'N passed, M failed'. One that ends badly has failed all the same.
counts() { # NAME COMMAND...
    local last status p f
    last=$("${@:2}" | tail -n 1)
    status=$?
    if [[ $last =~ ^([0-9]+)\ passed,\ ([0-9]+)\ failed$ ]]; then
        p=${BASH_REMATCH[1]} f=${BASH_REMATCH[2]}
        passed=$((passed + p)) failed=$((failed + f))
        [ "$f" -gt 0 ] || check "$1 ends well" 0 "$status"
    else
        check "$1 counts its checks" 'N passed, M failed' "$last"
    fi
}

closing() {
    echo "$passed passed, $failed failed"
    [ "$failed" -eq 0 ]
}
