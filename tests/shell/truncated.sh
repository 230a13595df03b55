# Scripts that end too early: each script of tests/rows/truncated, cut after each of its bytes. Which fault is reported follows
# from the grammar: what a script begins with begins a module, so its first tokens are a module themselves or end too early. Of
# its first bytes only the last token may be another than in the whole script. Where that one fits nowhere the rows of the
# script have the fault, a bar, and the least and the greatest length of the prefixes that end in this token.

# note PLACE FAULT LENGTHS: stores the fault of the prefixes of these lengths of $script, in $faults
note() {
    local length
    [ "${3#* }" -lt ${#script} ] || verdict 1 "$1: the script is shorter: $3"
    for ((length = ${3% *}; length <= ${3#* }; length++)); do
        faults[length]=$2
    done
}

# without_blanks TEXT: what a text is up to the end of its last token, in $prefix. Of the comments it may have only `//`.
without_blanks() {
    local last
    prefix=$1
    while true; do
        prefix=${prefix%"${prefix##*[![:space:]]}"}
        last=${prefix##*$'\n'}
        [[ $last = *//* ]] || break
        prefix=${prefix%"//${last#*//}"}
    done
}

# outcome PREFIX: how tokens with which a module begins are parsed, in $wanted: they are one where an item ends here, or none
# has begun, and no brace is open; else they end too early
outcome() {
    local prefix opened closed is_end=no
    without_blanks "$1"
    opened=${prefix//[!\{]/}
    closed=${prefix//[!\}]/}
    case $prefix in
        '' | *';' | *'}') is_end=yes ;;
    esac
    wanted="104 Unexpected ${#prefix}"
    if [ "$is_end" = yes ] && [ ${#opened} -eq ${#closed} ]; then
        wanted=read
    fi
}

# cuts FILE: a script, cut after each of its bytes, and the whole of it
cuts() {
    local script length wanted faults=()
    IFS= read -r -d '' script < "$1"
    rows_of "${1%.as}.rows" note
    for ((length = 0; length < ${#script}; length++)); do
        outcome "${script:0:length}"
        row "$1, $length bytes" "${faults[length]:-$wanted}" "${script:0:length}"
    done
    row "$1" read "$script"
}

for file in $(chosen tests/rows/truncated/*.as); do
    cuts "$file"
done
