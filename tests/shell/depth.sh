# How deep phrases may nest. A row of tests/rows/depth is of what is in as many blocks as the name of its file says; one of
# tests/rows/nests has a script in which a phrase is in itself: what is before it, how it opens, what is in the innermost, how
# it closes, and what is after it, with a # between two of these.

# repeat COUNT TEXT: the text so many times, in $repeated
repeat() {
    local number
    repeated=
    for ((number = 0; number < $1; number++)); do
        repeated+=$2
    done
}

# in_blocks COUNT PLACE WANTED SOURCE: a check of what is in so many blocks finds what is wanted
in_blocks() {
    local opened repeated
    repeat "$1" '{'
    opened=$repeated
    repeat "$1" '}'
    row "$2" "$3" "void f() { $opened$4$repeated }"
}

# nest PLACE NUMBERS PARTS: the phrase may be in itself as often as the first number says. Where it is once more, the first
# token that is too deep is at the offset that the second one says.
nest() {
    local parts most=${2% *} deep=${2#* } count wanted opened repeated
    IFS='#' read -r -a parts <<< "$3"
    [ ${#parts[@]} -eq 5 ] || verdict 1 "$1: a row without five parts: $3"
    for count in "$most" $((most + 1)); do
        repeat "$count" "${parts[1]}"
        opened=$repeated
        repeat "$count" "${parts[3]}"
        [ "$count" -eq "$most" ] && wanted=read || wanted="106 TooDeep $deep"
        row "$1, $count times" "$wanted" "${parts[0]}$opened${parts[2]}$repeated${parts[4]}"
    done
}

for file in $(chosen tests/rows/depth/*); do
    count=${file##*/}
    rows_of "$file" in_blocks "${count%.rows}"
done
for file in $(chosen tests/rows/nests/*); do
    rows_of "$file" nest
done
