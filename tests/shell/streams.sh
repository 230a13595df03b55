# Standard streams that are closed when the program starts. An input that is closed is empty, a write to an output that is
# closed fails, and no file takes the place of a stream: the files are byte for byte those of a run whose streams are open.

used_store "$scratch/store"
empty_store "$scratch/empty"
printf 'int f() { return 1; }\n' > "$scratch/script.as"
cp "$scratch/script.as" "$scratch/script.before"

# closed STREAMS WORD..: ashd with these words, without the standard streams whose descriptors these are
closed() {
    local streams=$1
    shift
    (
        [[ $streams != *0* ]] || exec <&-
        [[ $streams != *1* ]] || exec >&-
        [[ $streams != *2* ]] || exec 2>&-
        exec "$ashd" "$@"
    ) < "$scratch/input" > "$scratch/output" 2> "$scratch/error"
}

# ends_closed STREAMS WORDS STATUS OUTPUT FAULT WORD..: ashd ends so on these words without these streams. What a stream was to
# have is lost if it is closed.
ends_closed() {
    local streams=$1 name="$2 without $1" status=$3 output=$4 fault=$5 was
    shift 5
    [[ $streams != *1* ]] || output=
    [[ $streams != *2* ]] || fault=
    closed "$streams" "$@"
    was=$?
    [ "$was" -eq "$status" ] && [ "$(cat "$scratch/output")" = "$output" ] && [ "$(cat "$scratch/error")" = "$fault" ]
    verdict $? "$name (status $was, $(cat "$scratch/output" "$scratch/error"))"
}

# What a store is to have after the requests: as after the last one that was carried out, which the loss of its reply doesn't undo.
served=$scratch/served
keep "$scratch/store" "$served"
asks 'call m f 1\n'
ends "serve with all streams" 0 "" serve "$served" --budget 1000 --counters 2
holds "what it answers" 'ok 8 seq 3'

for streams in 0 1 2 01 02 12 012; do
    # The two commands that read no input: their word can't be written if the output is closed.
    status=0 fault=
    [[ $streams != *1* ]] || status=1 fault='ashd: 606 Write'
    mkdir "$scratch/made.$streams"
    ends_closed "$streams" create "$status" created "$fault" create "$scratch/made.$streams"
    same "the store that is made without $streams" "$scratch/made.$streams" "$scratch/empty"
    ends_closed "$streams" check "$status" ok "$fault" check "$scratch/script.as"
    cmp -s "$scratch/script.as" "$scratch/script.before"
    verdict $? "the script that is checked without $streams"

    # The two that serve: without an input there is no request, so nothing to write.
    output='ok 8 seq 3' wanted=$served
    [[ $streams != *0* ]] || status=0 fault= output= wanted=$scratch/store
    keep "$scratch/store" "$scratch/kept.$streams"
    ends_closed "$streams" serve "$status" "$output" "$fault" serve "$scratch/kept.$streams" --budget 1000 --counters 2
    same "the store that is served without $streams" "$scratch/kept.$streams" "$wanted"
    [ -z "$output" ] || output='refused 401 NoModule'
    ends_closed "$streams" try "$status" "$output" "$fault" try --budget 1000 --counters 2

    # A store that is damaged or missing is reported so, and stays.
    keep "$scratch/store" "$scratch/damaged.$streams"
    overwrite '\002' 8 "$scratch/damaged.$streams/ash.a"
    keep "$scratch/damaged.$streams" "$scratch/damaged.before.$streams"
    ends_closed "$streams" "serve of damage" 1 "" "ashd: 503 Damaged" serve "$scratch/damaged.$streams" --budget 1000 --counters 2
    same "the damaged store that is served without $streams" "$scratch/damaged.$streams" "$scratch/damaged.before.$streams"
    ends_closed "$streams" "create over a store" 1 "" "ashd: 502 AlreadyThere" create "$scratch/kept.$streams"
    same "the store that create refuses without $streams" "$scratch/kept.$streams" "$wanted"
done

# A source that is stored is not read as requests.
source=$'int n = 0; void f() { n = n + 1; } /*\ncall k f\nsnapshot\n*/'
printf 'load k %s\n%s\n' "${#source}" "$source" > "$scratch/input"
ends "serve a source with lines that are requests" 0 "" serve "$scratch/store" --budget 1000 --counters 2
holds "its reply" 'ok seq 3'
keep "$scratch/store" "$scratch/unread"
for streams in 0 01 02 012; do
    ends_closed "$streams" "serve of such a source" 0 "" "" serve "$scratch/store" --budget 1000 --counters 2
    same "the store with such a source" "$scratch/store" "$scratch/unread"
done
