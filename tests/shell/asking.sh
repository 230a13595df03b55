# What the subjects share that have rows of requests and replies. A reply is written without its `ok`, where more follows, and
# without its sequence number, which is one more than that of the answer before it: so `7` is `ok 7 seq 2` of the first call.

budget=1000
host=(try)

# anew: nothing is asked yet
anew() {
    asked=
    places=()
    requests=()
    wanted=()
}

# ask PLACE WANTED REQUEST [SOURCE]: the next run has this request, which the row at this place wants so replied to
ask() {
    places+=("$1")
    wanted+=("$2")
    requests+=("$3")
    asked+=$3$'\n'
    [ $# -eq 3 ] || asked+=$4$'\n'
}

# ask_load PLACE WANTED MODULE SOURCE: the same of a load of a source, in which each character is a byte
ask_load() {
    ask "$1" "$2" "load $3 ${#4}" "$4"
}

# whole WANTED REQUEST NUMBER: the line of a reply, in $line. An answer has this sequence number.
whole() {
    local outcome=${1%% dropped *}
    case $outcome in
        ok | refused* | exception* | aborted*) line=$outcome ;;
        *) line="ok $outcome" ;;
    esac
    case $outcome/$2 in
        refused*) ;;
        */load* | */call* | */discard*) line+=" seq $3${1#"$outcome"}" ;;
    esac
}

# check_run NAME [NUMBER]: a run over what was asked ends well, and each row gets its replies. The last sequence number is
# this before it, and is then in $number.
check_run() {
    local each line place=${places[0]} found= replies=() reply
    number=${2:-0}
    printf '%s' "$asked" > "$scratch/input"
    ends "$1: a run" 0 "" "${host[@]}" --budget "$budget" --counters 2
    mapfile -t replies < "$scratch/output"
    for each in "${!requests[@]}"; do
        if [ "${places[each]}" != "$place" ]; then
            [ -z "$found" ]
            verdict $? "$place: $found"
            place=${places[each]}
            found=
        fi
        whole "${wanted[each]}" "${requests[each]}" $((number + 1))
        reply=${replies[each]:-none}
        [ "$reply" = "$line" ] || found+="${requests[each]}: $line ($reply); "
        [[ $reply = *' seq '* ]] && number=${reply#* seq } && number=${number%% *}
    done
    [ -z "$found" ]
    verdict $? "$place: $found"
    [ ${#replies[@]} -eq ${#requests[@]} ]
    verdict $? "$1: ${#replies[@]} replies to ${#requests[@]} requests"
}

# all_rows FOLDER COMMAND..: the rows of each file of a folder, in one run each
all_rows() {
    local file folder=$1
    shift
    for file in $(chosen tests/rows/"$folder"/*.rows); do
        anew
        rows_of "$file" "$@"
        check_run "$file"
    done
}

# A function that makes so many arrays, which its frames hold, and then calls `last`: none of it is a release point
printf -v holding 'array<int>() is null || %.0s' {1..32}
holding="bool hold(int n) { return n >= 32 ? ${holding}hold(n - 32) : n > 0 ? array<int>() is null || hold(n - 1) : last(); } "
