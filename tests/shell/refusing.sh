# What objects.sh, boxes.sh, machine.sh and crashes.sh share: tests of a crate whose allocations are refused in turn, up to
# the one of the number $most.
most=1000

# refuse NUMBER TEST: runs a test with the allocation of this number refused; whether it passed
refuse() {
    rm -f "$scratch/refused"
    timeout 60 env REFUSE="$1" REFUSED="$scratch/refused" LD_PRELOAD="$scratch/refuse_memory.so" \
        "$tests" "$2" < /dev/null > "$scratch/output" 2> "$scratch/error" && grep -qx "test result: ok" "$scratch/output"
}

# refuse_in_turn TEST: refuses each allocation of a test in turn, until a run meets no refusal
refuse_in_turn() {
    local untouched=1 number
    for number in $(seq 1 "$most"); do
        refuse "$number" "$1"
        verdict $? "$1, allocation $number refused: $(head -c 300 "$scratch/error")"
        [ -e "$scratch/refused" ] || { untouched=0; break; }
    done
    verdict $untouched "a run of $1 that no refusal meets"
    [ "$number" -gt 1 ]
    verdict $? "an allocation of $1 that is refused"
}

# refuse_tests CRATE PROGRAM: refuses each allocation of each test of refusals.rt of a crate, by the program with its tests,
# which `rt test` makes. Such a test passes whichever of its allocations is refused.
refuse_tests() {
    local crate=$1 test
    tests=$2
    if [ ! -x "$tests" ]; then
        verdict 1 "the tests of $crate are not built (rt test in crates/$crate does it): $tests"
        return
    fi
    cc -shared -fPIC -o "$scratch/refuse_memory.so" tests/refuse_memory.c -ldl
    verdict $? "the library that refuses memory"
    "$tests" --list > "$scratch/list"
    grep -o '^refusals::[a-z_]*' "$scratch/list" > "$scratch/names"
    [ "$(wc -l < "$scratch/names")" -eq "$(grep -c '^#\[test\]' "crates/$crate/src/refusals.rt")" ]
    verdict $? "the list of the tests that are refused memory"
    while read -r test; do
        refuse_in_turn "$test"
    done < "$scratch/names"
}
