# Runs as their transcripts have them, each file of tests/transcripts a subject. A line that begins with `$ ashd ` has the words
# of a run, whose folder `store` is a fresh one for `create` and that of the run before for `serve`. The lines after it have
# what is sent, each after `> `, and after `< ` what is replied to that. Runs end well, and print nothing else.

# begin PLACE WORDS: a run begins, of which nothing is known so far
begin() {
    place=$1 words=$2 sent= request= wanted= replies=() asked=()
    if [ "$2" = 'create store' ]; then
        rm -rf "$scratch/store"
        mkdir "$scratch/store"
    fi
}

# finish: has ashd run with these words on what was sent, and compares each reply, and then all that was printed
finish() {
    local found=() error number status
    (cd "$scratch" && printf '%s' "$sent" | "$ashd" $words > output 2> error)
    status=$?
    mapfile -t found < "$scratch/output"
    for number in "${!replies[@]}"; do
        [ "${found[number]-}" = "${replies[number]}" ]
        verdict $? "${asked[number]}wanted ${replies[number]}, found ${found[number]-nothing}"
    done
    error=$(cat "$scratch/error")
    [ "$status" -eq 0 ] && [ -z "$error" ] && printf '%s' "$wanted" | cmp -s - "$scratch/output"
    verdict $? "$place: ashd $words (status $status, ${#found[@]} lines, $error)"
}

# transcript FILE: its runs
transcript() {
    local line lines=() number=0 place= words= sent= request= wanted= replies=() asked=()
    rm -rf "$scratch/store"
    mapfile -t lines < "$1"
    for line in "${lines[@]}"; do
        number=$((number + 1))
        case $line in
            '' | '# '*) ;;
            '$ ashd '*)
                [ -z "$words" ] || finish
                begin "$1:$number" "${line#'$ ashd '}"
                ;;
            '>' | '> '*)
                line=${line#>}
                sent+=${line# }$'\n'
                request+="${line# }; "
                ;;
            '< '*)
                replies+=("${line#< }")
                asked+=("$1:$number: ${request:-$words; }")
                wanted+=${line#< }$'\n'
                request=
                ;;
            *) verdict 1 "$1:$number: no line of a transcript: $line" ;;
        esac
    done
    finish
}

for file in $(chosen tests/transcripts/*); do
    transcript "$file"
done
