# What a program that judges files has to print, and its exit status: on the samples, on files made here, and over a
# library that is not the judge. To be sourced after checks.bash. The arrays `judge` and `over_stand_in` are the program as
# a command, the second over the stand-in; `samples` is the folder. Files are made in the current folder.
# shellcheck disable=SC2154

# Runs a command, and prints what it does and its status. One that reads without end runs out of memory.
ran() { # COMMAND...
    (
        ulimit -v 1000000
        timeout 60 "$@" 2>stderr
        echo "status $?"
    )
}

prints() { # NAME STATUS LINES COMMAND...
    check "$1" "${3:+$3$'\n'}status $2" "$(ran "${@:4}")"
}

# Of the judge, with the words that it is given.
says() { # STATUS LINES WORDS...
    prints "judge ${*:3}" "$1" "$2" "${judge[@]}" "${@:3}"
}

# A line as the table of the samples has it.
in_short() {
    sed -E 's/^Order +.*: threads ([0-9 ]+) \([0-9]+ attempts?\)$/Order \1/
        s/^No order +.*: .* \([0-9]+ attempts?\)$/No order/
        s/^(Invalid|Refused) +.*: refusal ([0-9]+) in the header: .*/\1, \2 at byte 0/
        s/^(Invalid|Refused) +.*: refusal ([0-9]+) in the event at byte ([0-9]+): .*/\1, \2 at byte \3/'
}

# A column of the samples' table, without the spaces and quotes around a cell.
column() { # NUMBER
    # shellcheck disable=SC2016 # The quotes are the table's.
    grep '^| `' "$samples/README.md" | cut -d '|' -f "$1" | sed -E 's/^[ `]+//; s/[ `]+$//'
}

check_samples() { # MODEL COLUMN
    local files wanted got i
    mapfile -t files < <(column 2)
    mapfile -t wanted < <(column "$2")
    mapfile -t got < <(ran "${judge[@]}" --model "$1" "${files[@]/#/$samples/}" | in_short)
    check 'every sample is in the table' "$(find "$samples" -name '*.raw' | wc -l)" ${#files[@]}
    for i in "${!files[@]}"; do check "${files[i]}, $1" "${wanted[i]}" "${got[i]-}"; done
    check "the samples' status, $1" 'status 1' "${got[-1]}"
}

check_verdicts() {
    printf 'RAW1\x00\x82\x01\x00\x01\x02\x00\x84\x01\x03\x00' >trace-14
    says 0 'Order      trace-14: threads 0 1 (2 attempts)' trace-14
    says 0 'Order      trace-14: threads 0 1 (2 attempts)' --budget 2 trace-14
    says 0 'Order      trace-14: threads 0 1 (2 attempts)' --budget 4294967296 trace-14
    says 3 'Undecided  trace-14: a budget of 1 attempt does not cover the search' --budget 1 trace-14
    says 3 'Undecided  trace-14: a budget of 0 attempts does not cover the search' --budget 0 trace-14

    printf 'RAW1\x00\x82\x01\x00\x00\x84\x01\x01\x00\x02\x01\x03\x01\x82\x01' >stale
    says 1 'No order   stale: no one-at-a-time order explains it (3 attempts)' stale
    says 1 'No order   stale: no one-at-a-time order explains it (3 attempts)' --model linearizable stale
    says 0 'Order      stale: threads 1 0 (4 attempts)' --model sequential stale
    says 0 'Order      stale: threads 1 0 (4 attempts)' --model sequential --budget 18446744073709551615 stale
    says 3 'Undecided  stale: a budget of 2 attempts does not cover the search' --budget 2 stale

    printf 'RAW1\x00\x00' >header
    printf 'RAW1\x00\x00\x00\x01' >in-flight
    says 2 'Empty      header: nothing judged, since no operation completed' header
    says 2 'Empty      in-flight: nothing judged, since no operation completed' in-flight
}

refused() { # NAME BYTES WHAT IT SAYS
    # shellcheck disable=SC2059 # The bytes are written as printf's escapes.
    printf "$2" >"$1"
    says 1 "${3%%:*} $1:${3#*:}" "$1"
}

check_refusals() {
    local of='RAW1\x00\x00'
    refused second-invoke "$of"'\x00\x01\x00\x01' \
        'Invalid   : refusal 4 in the event at byte 8: the thread invokes an operation while its last one is still in flight'
    refused stray-return "$of"'\x00\x01\x03\x00' \
        'Invalid   : refusal 5 in the event at byte 8: the thread returns although it has no operation in flight'
    refused thread-8 "$of"'\x00\x01\x10\x01' 'Refused   : refusal 2 in the event at byte 8: the event names a thread above 7'
    refused 65-operations "$of$(printf '\\x00\\x01\\x01\\x01\\x00%.0s' {1..65})" \
        'Refused   : refusal 6 in the event at byte 326: the event would be the 65th operation, and 64 is the most'
    refused nothing '' 'Refused   : refusal 21 in the header: the file does not open with the bytes RAW1'
    refused opening 'RAW1' 'Refused   : refusal 22 in the header: the file ends where a number should go on'
    refused cut-off "$of"'\x00' 'Refused   : refusal 22 in the event at byte 6: the file ends where a number should go on'
    refused large-number "$of"'\xff\xff\xff\xff\x10' \
        'Refused   : refusal 23 in the event at byte 6: a number is above 4,294,967,295 or longer than five bytes'
    refused unknown-code 'RAW1\x03' \
        'Refused   : refusal 24 in the header: a number stands for no object, operation, return or flag'
    refused deep-stack 'RAW1\x02\x21' 'Refused   : refusal 25 in the header: the stack starts with more than 32 values'

    head -c 65536 /dev/zero >longest
    head -c 65537 /dev/zero >too-long
    says 1 'Refused    longest: refusal 21 in the header: the file does not open with the bytes RAW1' longest
    says 1 'Refused    too-long: refusal 20 in the header: the file is longer than 65,536 bytes' too-long
    says 1 'Refused    /dev/zero: refusal 20 in the header: the file is longer than 65,536 bytes' /dev/zero
}

# The first that fits of 2, 1, 3 and 0; every file is judged all the same.
check_statuses() {
    local green='Order      trace-14: threads 0 1 (2 attempts)'
    local open='Undecided  stale: a budget of 2 attempts does not cover the search'
    local red='Refused    opening: refusal 22 in the header: the file ends where a number should go on'
    local empty='Empty      header: nothing judged, since no operation completed'
    local missing='Unreadable missing: No such file or directory'
    local folder='Unreadable .: Is a directory'
    says 0 "$green"$'\n'"$green" trace-14 trace-14
    says 3 "$green"$'\n'"$open"$'\n'"$green" --budget 2 trace-14 stale trace-14
    says 1 "$red"$'\n'"$open"$'\n'"$green" --budget 2 opening stale trace-14
    says 1 "$open"$'\n'"$red" --budget 2 stale opening
    says 2 "$empty"$'\n'"$green" header trace-14
    says 2 "$open"$'\n'"$empty"$'\n'"$red" --budget 2 stale header opening
    says 2 "$missing"$'\n'"$green"$'\n'"$red" missing trace-14 opening
    says 2 "$folder"$'\n'"$green" . trace-14
}

check_words() {
    local words
    for words in '' '--budget' '--budget 1' '--budget -1 trace-14' '--budget 1x trace-14' '--budget +1 trace-14' \
        '--budget 1_0 trace-14' '--budget 18446744073709551616 trace-14' '--budget 99999999999999999999 trace-14' \
        '--model trace-14' '--model both trace-14' '--model Sequential trace-14' '--modal sequential trace-14' \
        '--made-of trace-14' '--help' '--'; do
        # shellcheck disable=SC2086 # The words are several.
        says 2 '' $words
        check "usage for: $words" 'usage:' "$(head -c 6 stderr)"
    done
    says 2 '' --budget '' trace-14
    says 2 '' --budget ' 1' trace-14
    says 2 'Unreadable : No such file or directory' ''

    cp trace-14 $'two\nOrder'
    says 0 'Order      two\x0aOrder: threads 0 1 (2 attempts)' $'two\nOrder'
    cp trace-14 ./--budget
    says 0 $'Order      trace-14: threads 0 1 (2 attempts)\nOrder      --budget: threads 0 1 (2 attempts)' trace-14 --budget

    "${judge[@]}" trace-14 >/dev/full 2>stderr
    check 'a line that can not be written' 2 $?
    "${judge[@]}" trace-14 >&- 2>stderr
    check 'no stdout' 2 $?
}

# Writes a file for the stand-in, all in hex: what it returns, then verdict, refusal and length, attempts, place, threads.
answer() { # NAME RETURNED FIELDS ATTEMPTS PLACE THREADS
    local threads=${6-}
    while [ ${#threads} -lt 128 ]; do threads+=ff; done
    # shellcheck disable=SC2059,SC2001 # The bytes are written as printf's escapes.
    printf "$(sed 's/../\\x&/g' <<<"$2$3$4$5$threads")" >"$1"
}

stands_in() { # STATUS LINE FILE
    prints "stand-in gives $3" "$1" "$2" "${over_stand_in[@]}" "$3"
}

# Fields that are allowed together are told as they are.
check_allowed() {
    local many=0807060504030201 far=03020100 none=0000000000000000 start=00000000 full
    full=$(printf '0001020304050607%.0s' {1..8})
    answer order 00 000002 $many $start 0700
    stands_in 0 'Order      order: threads 7 0 (72623859790382856 attempts)' order
    answer full 00 000040 $many $start "$full"
    stands_in 0 "Order      full: threads $(sed -E 's/0(.)/\1 /g; s/ $//' <<<"$full") (72623859790382856 attempts)" full
    answer no-order 00 010000 ffffffffffffffff $start ''
    stands_in 1 'No order   no-order: no one-at-a-time order explains it (18446744073709551615 attempts)' no-order
    answer far 00 041600 $none $far ''
    stands_in 1 'Refused    far: refusal 22 in the event at byte 66051: the file ends where a number should go on' far
    answer farthest 00 040200 $none ffffffff ''
    stands_in 1 'Refused    farthest: refusal 2 in the event at byte 4294967295: the event names a thread above 7' farthest
}

# Bytes that the judge never gives are no answer, and never green.
check_unknown() {
    local one=0100000000000000 none=0000000000000000 start=00000000 at=09000000 bytes unknown=() got i=0 line
    mapfile -t unknown <<END
00 050000 $none $start
00 000400 $none $start
00 000000 $none $at
00 000001 $one $start
00 000001 $one $start 0001
00 000001 $one $start 08
00 000041 $one $start $(printf '00%.0s' {1..64})
00 0000ff $one $start $(printf '00%.0s' {1..64})
00 010001 $one $start 00
00 010000 $one $start 00
00 010000 $one $at
00 020600 $one $start
00 030000 $none $start
00 030600 $none $at
00 030400 $one $at
00 030401 $none $at 00
00 040000 $none $at
00 040400 $none $at
00 040500 $none $at
00 040900 $none $at
00 041800 $one $at
00 041801 $none $at 00
00 000000 $none $start $(printf '00%.0s' {1..64})
00 ffffff ffffffffffffffff ffffffff
01 000002 $one $start 0001
0a 000002 $one $start 0001
0b 000002 $one $start 0001
ff 000002 $one $start 0001
END
    # shellcheck disable=SC2086 # The words are several.
    for bytes in "${unknown[@]}"; do answer unknown-$((i++)) $bytes; done
    mapfile -t got < <(ran "${over_stand_in[@]}" unknown-{0..27})
    for i in "${!unknown[@]}"; do
        bytes=${unknown[i]}
        line="Unknown    unknown-$i: the library is not the judge (it returned $((16#${bytes%% *})))"
        check "stand-in gives $bytes" "$line" "${got[i]-}"
    done
    check 'status of what the judge never gives' 'status 2' "${got[28]-}"
}

check_program() {
    check_samples linearizable 4
    check_samples sequential 5
    check_verdicts
    check_refusals
    check_statuses
    check_words
    check_allowed
    check_unknown
}
