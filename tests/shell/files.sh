# Faults of the files of a store: missing, folders, damaged, and a disk that is full.

store=$scratch/store
used_store "$store"
empty_store "$scratch/empty"
asks ''
mkdir -p "$scratch/folders/ash.a" "$scratch/half"
ends "create where a folder has the file's name" 1 "ashd: 507 DeviceFailed" create "$scratch/folders"
ends "serve where a folder has the file's name" 1 "ashd: 507 DeviceFailed" serve "$scratch/folders" --budget 1 --counters 0
cp "$store/ash.a" "$scratch/half"
ends "serve where the second file is missing" 1 "ashd: 507 DeviceFailed" serve "$scratch/half" --budget 1 --counters 0
ends "create where the second file is missing" 1 "ashd: 502 AlreadyThere" create "$scratch/half"
cmp -s "$store/ash.a" "$scratch/half/ash.a"
verdict $? "that create changes nothing"
keep "$store" "$scratch/damaged"
overwrite '\002' 8 "$scratch/damaged/ash.a"
ends "serve a damaged store" 1 "ashd: 503 Damaged" serve "$scratch/damaged" --budget 1 --counters 0
mkdir "$scratch/full"
ln -s /dev/full "$scratch/full/ash.a"
ends "create on a full disk" 1 "ashd: 507 DeviceFailed" create "$scratch/full"
rm "$scratch/full/ash.a"
"$ashd" create "$scratch/full" > /dev/full 2> "$scratch/error"
[ $? -eq 1 ] && [ "$(cat "$scratch/error")" = "ashd: 606 Write" ]
verdict $? "create whose word can't be written"
same "the store that it made" "$scratch/full" "$scratch/empty"

# A record that is cut is damage; a gate that is closed ends the records, whatever follows.
asks ''
keep "$store" "$scratch/cut"
truncate -s -1 "$scratch/cut/ash.a"
keep "$scratch/cut" "$scratch/before"
ends "serve a store whose last record is cut" 1 "ashd: 503 Damaged" serve "$scratch/cut" --budget 1 --counters 0
same "a damaged store stays" "$scratch/cut" "$scratch/before"
keep "$store" "$scratch/closed"
overwrite '\0' $((250 + 93 - 1)) "$scratch/closed/ash.a"
asks 'get m n\nseq\n'
ends "serve a store whose last record doesn't count" 0 "" serve "$scratch/closed" --budget 1 --counters 0
holds "what is found before that record" $'ok 2\nok 1'
asks ''
mkdir "$scratch/second"
ln -s /dev/full "$scratch/second/ash.b"
ends "create where the second file's disk is full" 1 "ashd: 507 DeviceFailed" create "$scratch/second"
rm "$scratch/second/ash.b"
ends "create after that" 0 "" create "$scratch/second"
same "the store after that" "$scratch/second" "$scratch/empty"

# A disk that is full in a request: a file of 1,024 bytes at most has room for the 387 of the first example, and for a part of a
# record of 741.
# limited WORD..: ashd with these words, whose files have at most 1,024 bytes
limited() {
    (ulimit -f 1 && trap '' XFSZ && exec "$ashd" "$@")
}
keep "$store" "$scratch/small"
printf 'load k 700\n%700s\nget m n\nsnapshot\nseq\n' '' > "$scratch/input"
limited serve "$scratch/small" --budget 1000 --counters 2 < "$scratch/input" > "$scratch/output" 2> "$scratch/error"
[ $? -eq 0 ]
verdict $? "serve on a disk that gets full: $(cat "$scratch/error")"
holds "a request on a disk that is full" $'refused 507 DeviceFailed\nrefused 508 Reopen\nrefused 508 Reopen\nok 2'
[ "$(wc -c < "$scratch/small/ash.a")" -eq 1024 ]
verdict $? "a part of the record is written"
asks 'get m n\nseq\ncall m f 1\n'
ends "serve once there is room" 0 "" serve "$scratch/small" --budget 1000 --counters 2
holds "what is found once there is room" $'ok 7\nok 2\nok 8 seq 3'

# A limit on files whose signal is not ignored ends the process within a request, which is not acknowledged.
keep "$store" "$scratch/limited"
printf 'call m f 1\nload k 700\n%700s\nget m n\n' '' > "$scratch/input"
{ (ulimit -c 0 -f 1 && exec "$ashd" serve "$scratch/limited" --budget 1000 --counters 2) < "$scratch/input" > "$scratch/output"; } \
    2> "$scratch/error"
[ $? -eq $((128 + $(kill -l XFSZ))) ]
verdict $? "serve under a limit on files whose signal is not ignored: $(cat "$scratch/error")"
asks 'get m n\nseq\ncall m f 1\n'
ends "serve after such an end" 0 "" serve "$scratch/limited" --budget 1000 --counters 2
holds "what is found after such an end" $'ok 8\nok 3\nok 9 seq 4'

# create that finds a store leaves no file beside it.
mkdir "$scratch/second_only" "$scratch/first_only"
cp "$store/ash.a" "$scratch/second_only/ash.b"
cp "$store/ash.a" "$scratch/first_only/ash.a"
asks ''
ends "create where the second file alone is a store" 1 "ashd: 502 AlreadyThere" create "$scratch/second_only"
[ "$(ls "$scratch/second_only")" = ash.b ] && cmp -s "$store/ash.a" "$scratch/second_only/ash.b"
verdict $? "that create leaves the second file alone: $(ls -l "$scratch/second_only")"
ends "create where the first file alone is a store" 1 "ashd: 502 AlreadyThere" create "$scratch/first_only"
[ "$(ls "$scratch/first_only")" = ash.a ] && cmp -s "$store/ash.a" "$scratch/first_only/ash.a"
verdict $? "that create leaves the first file alone: $(ls -l "$scratch/first_only")"
: > "$scratch/second_only/ash.a"
ends "create where the first file was empty" 1 "ashd: 502 AlreadyThere" create "$scratch/second_only"
[ -e "$scratch/second_only/ash.a" ] && [ ! -s "$scratch/second_only/ash.a" ]
verdict $? "a file that create has not made stays"

# A lock that the system doesn't give, for another reason than that a process has it.
printf '#include <errno.h>\nint flock(int file, int how) { errno = ENOLCK; return -1; }\n' |
    cc -shared -fPIC -o "$scratch/no_locks.so" -x c -
verdict $? "the library that gives no lock"
keep "$store" "$scratch/unlocked"
mkdir "$scratch/unlockable"
LD_PRELOAD=$scratch/no_locks.so ends "serve without a lock" 1 "ashd: 507 DeviceFailed" serve "$scratch/unlocked" --budget 1000 --counters 2
LD_PRELOAD=$scratch/no_locks.so ends "create without a lock" 1 "ashd: 507 DeviceFailed" create "$scratch/unlockable"
same "a store that could not be locked" "$scratch/unlocked" "$store"

# starts FOLDER: serves a store in the background
starts() {
    coproc served { exec "$ashd" serve "$1" --budget 1000 --counters 2; }
    served_id=$served_PID
    exec {replies}<&"${served[0]}" {requests}>&"${served[1]}"
}

# answers REQUEST WANTED WHEN: it answers a request so
answers() {
    local reply
    printf '%s\n' "$1" >&"$requests"
    read -r -t 10 reply <&"$replies"
    [ "$reply" = "$2" ]
    verdict $? "$1, $3: $reply"
}

# stops WHEN: it ends well
stops() {
    answers quit ok "$1"
    { wait "$served_id"; } 2> /dev/null
    verdict $? "the end of serving, $1"
    exec {replies}<&- {requests}>&-
}

# Files that lose their names while they are served.
for change in removed replaced; do
    keep "$store" "$scratch/$change"
    starts "$scratch/$change"
    answers 'call m f 1' 'ok 8 seq 3' "before the first file is $change"
    if [ "$change" = removed ]; then
        rm -r "$scratch/$change"
    else
        cp "$store/ash.a" "$scratch/$change/new"
        mv "$scratch/$change/new" "$scratch/$change/ash.a"
    fi
    answers 'call m f 1' 'refused 507 DeviceFailed' "after the first file was $change"
    answers 'call m f 1' 'refused 508 Reopen' "after that, with the first file $change"
    stops "with the first file $change"
done
same "a store whose first file was replaced" "$scratch/replaced" "$store"
keep "$store" "$scratch/moving"
starts "$scratch/moving"
answers seq 'ok 2' "before the folder is moved"
mv "$scratch/moving" "$scratch/moved"
answers 'call m f 1' 'ok 8 seq 3' "after the folder was moved"
stops "with the folder moved"
asks 'get m n\nseq\n'
ends "serve a folder that was moved while it was served" 0 "" serve "$scratch/moved" --budget 1000 --counters 2
holds "what is found in a folder that was moved" $'ok 8\nok 3'

# What else may have a file's name: a file that can't be written, a link, and a pipe.
for file in ash.a ash.b; do
    for kind in unwritable circular pipe; do
        keep "$store" "$scratch/$kind.$file"
        rm "$scratch/$kind.$file/$file"
        case $kind in
            unwritable) ln -s /proc/sys/kernel/ostype "$scratch/$kind.$file/$file" ;;
            circular) ln -s "$file" "$scratch/$kind.$file/$file" ;;
            pipe) mkfifo "$scratch/$kind.$file/$file" ;;
        esac
    done
done
asks ''
for kind in unwritable circular pipe; do
    for file in ash.a ash.b; do
        ends "serve where $file is $kind" 1 "ashd: 507 DeviceFailed" serve "$scratch/$kind.$file" --budget 1000 --counters 2
    done
    ends "create where the first file is $kind" 1 "ashd: 507 DeviceFailed" create "$scratch/$kind.ash.a"
    cmp -s "$store/ash.a" "$scratch/$kind.ash.b/ash.a" && cmp -s "$store/ash.b" "$scratch/$kind.ash.a/ash.b"
    verdict $? "the other file stays where one is $kind"
done
keep "$store" "$scratch/linked_to"
mkdir "$scratch/linked"
ln -s ../linked_to/ash.a ../linked_to/ash.b "$scratch/linked"
asks 'call m f 1\nsnapshot\nseq\n'
ends "serve a store whose files are links" 0 "" serve "$scratch/linked" --budget 1000 --counters 2
holds "what it answers" $'ok 8 seq 3\nok\nok 3'
asks 'get m n\nseq\n'
ends "serve what the links lead to" 0 "" serve "$scratch/linked_to" --budget 1000 --counters 2
holds "what is found there" $'ok 8\nok 3'

# A file past 2^32 bytes, most of it a hole after the last record.
keep "$store" "$scratch/sparse"
truncate -s 5G "$scratch/sparse/ash.a"
asks 'get m n\ncall m f 1\n'
ends "serve a file of 5 GiB" 0 "" serve "$scratch/sparse" --budget 1000 --counters 2
holds "what it answers" $'ok 7\nok 8 seq 3'
asks 'get m n\nsnapshot\nseq\n'
ends "serve it again" 0 "" serve "$scratch/sparse" --budget 1000 --counters 2
holds "what it answers then" $'ok 8\nok\nok 3'
