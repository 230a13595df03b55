# What the files beside this one share. Each of them is one subject, and finds an empty folder in $scratch.

ashd=$(realpath -m "${ASHD:-$top/crates/ashd/out/ashd}")
passed=0
failed=0

# verdict STATUS NAME: counts a test. The status comes first, since a $? after a name with $(..) in it would be that of
# the command in there.
verdict() {
    if [ "$1" -eq 0 ]; then
        passed=$((passed + 1))
    else
        failed=$((failed + 1))
        echo "failed: $subject: $2"
    fi
}

# asks TEXT: the input of the next runs; printf writes it
asks() {
    printf "$1" > "$scratch/input"
}

# ends NAME STATUS STANDARD-ERROR WORD..: ashd ends so on these words, with $scratch/input as its input
ends() {
    local name=$1 status=$2 error=$3
    shift 3
    "$ashd" "$@" < "$scratch/input" > "$scratch/output" 2> "$scratch/error"
    local was=$?
    [ "$was" -eq "$status" ] && [ "$(cat "$scratch/error")" = "$error" ]
    verdict $? "$name (status $was, $(cat "$scratch/error"))"
}

# holds NAME TEXT: the output of the last run was this, with a line feed after it where it isn't empty
holds() {
    printf '%s' "${2:+$2$'\n'}" | cmp -s - "$scratch/output"
    verdict $? "$1: $(head -c 300 "$scratch/output")"
}

# same NAME FOLDER FOLDER: the same two files, byte for byte
same() {
    cmp -s "$2/ash.a" "$3/ash.a" && cmp -s "$2/ash.b" "$3/ash.b"
    verdict $? "$1"
}

# keep STORE FOLDER: a copy of a store's two files in a folder
keep() {
    mkdir -p "$2"
    cp "$1/ash.a" "$1/ash.b" "$2"
}

# overwrite BYTES OFFSET FILE: overwrites bytes, which are written as for printf
overwrite() {
    printf "$1" | dd of="$3" bs=1 seek="$2" conv=notrunc status=none
}

# is_wanted WANTED STATUS OUTPUT: a check that ends with this status and prints this finds what is wanted: `ok`, a fault, or
# `read`, which is of a script that can be parsed, whatever is found of its types
is_wanted() {
    case $1 in
        ok) [ "$2/$3" = "0/ok"$'\n' ] ;;
        read) [[ $2/$3 = "0/ok"$'\n' || $2/$3 =~ ^1/refused\ 3[01][0-9]\ [A-Za-z0-9\ ]+$'\n'$ ]] ;;
        *) [ "$2/$3" = "1/refused $1"$'\n' ] ;;
    esac
}

# row PLACE WANTED SOURCE: a check of this source finds what is wanted, and prints nothing further
row() {
    local status output error found
    printf '%s' "$3" > "$scratch/script"
    "$ashd" check "$scratch/script" > "$scratch/output" 2> "$scratch/error"
    status=$?
    IFS= read -r -d '' output < "$scratch/output"
    IFS= read -r -d '' error < "$scratch/error"
    found=$output${error:+standard error: $error}
    is_wanted "$2" "$status" "$output" && [ -z "$error" ]
    verdict $? "$1: $2 | $3 (status $status: ${found//$'\n'/; })"
}

# chosen FILE..: the files, or of these the one that ONLY names, if it does
chosen() {
    local file
    for file in "$@"; do
        [[ -n "${ONLY:-}" && $file != "$ONLY" ]] || echo "$file"
    done
}

# rows_of FILE COMMAND..: calls the command with the place of each row, what is before its first bar between two spaces, and
# what is after that. A line is empty, a comment, which begins with `# `, or a row.
rows_of() {
    local file=$1 lines=() line number=0 rows=0
    shift
    mapfile -t lines < "$file"
    for line in "${lines[@]}"; do
        number=$((number + 1))
        case $line in
            '' | '# '*) ;;
            *' | '*)
                rows=$((rows + 1))
                "$@" "$file:$number" "${line%% | *}" "${line#* | }"
                ;;
            *) verdict 1 "$file:$number: a row without a bar: $line" ;;
        esac
    done
    [ "$rows" -gt 0 ]
    verdict $? "$file: a file without rows"
}

# registered_text: the text of what ashd registers, which has 191 bytes
registered_text() {
    printf 'type Counter 1\nfactory Counter (int)\nmethod Counter 1 int add(int)\nmethod Counter 2 void fail(int)\n'
    printf 'property Counter 1 int value\nservice 2\nfunction 0 1 int tally(int)\nfunction 0 2 int total()\n'
}

# image NUMBER MODULES [SERVICES [LAST OBJECTS]]: the image in version 2 of a host with that text, after fewer than 256 requests,
# with a tally of 0 as its service, and with these modules, which are how many there are and each of them, and which printf writes,
# and so are other services, the last number of an object, below 256, and objects: 228 bytes without any module
image() {
    printf '\002\0\277\0\0\0'
    registered_text
    printf "\\$(printf %o "$1")\\0\\0\\0\\0\\0\\0\\0\\$(printf %o "${4:-0}")\\0\\0\\0\\0\\0\\0\\0"
    printf "${3:-\\001\\0\\002\\0\\004\\0\\0\\0\\0\\0}"
    printf "$2"
    printf "${5:-\\0\\0\\0\\0}"
}

# generation NUMBER LENGTH NUMBER MODULES [..]: the file of a generation below 256, with an image of this length, which is below
# 65,536, and no records
generation() {
    printf '\001ASHOST01'
    printf "\\$(printf %o "$1")\\0\\0\\0\\0\\0\\0\\0\\$(printf %o "$(($2 % 256))")\\$(printf %o "$(($2 / 256))")\\0\\0"
    image "${@:3}"
    printf '\0'
}

# body NUMBER MODULES [SERVICES [LAST OBJECTS]]: the body of a record of what the request of this number, below 256, changed: what
# became of the modules, which printf writes, and so are the services that were called, the last number of an object, below 256,
# and the objects that were made or changed. None are gone.
body() {
    printf "\\002\\$(printf %o "$1")\\0\\0\\0\\0\\0\\0\\0\\$(printf %o "${4:-0}")\\0\\0\\0\\0\\0\\0\\0"
    printf "${3:-\\0\\0}"
    printf "$2"
    printf '\0\0\0\0'
    printf "${5:-\\0\\0\\0\\0}"
}

# record FILE LENGTH NUMBER MODULES [..]: adds a record with such a body, which has this length, below 65,536, to a file whose
# last gate it opens, and the gate after it
record() {
    overwrite '\001' $(($(wc -c < "$1") - 1)) "$1"
    {
        printf "\\$(printf %o "$(($2 % 256))")\\$(printf %o "$(($2 / 256))")\\0\\0"
        body "${@:3}"
        printf '\0'
    } >> "$1"
}

# counted COMMAND..: a command of tests/hostile, whose last line has how many passed and failed, over the program that is tried
counted() {
    local passes fails
    ASHD=$ashd "$@" > "$scratch/output" 2>&1
    read -r passes fails < <(sed -nE '$s/^([0-9]+) passed, ([0-9]+) failed$/\1 \2/p' "$scratch/output")
    passed=$((passed + ${passes:-0}))
    failed=$((failed + ${fails:-1}))
    [ "${passes:-0}/${fails:-1}" != 0/0 ]
    verdict $? "$*: nothing was tried"
    [ "${fails:-1}" -eq 0 ] || sed "s/^/$subject: /" "$scratch/output"
}

# empty_store FOLDER: the two files of a store without modules, with what ashd registers, written by hand
empty_store() {
    mkdir -p "$1"
    generation 1 228 0 '\0' > "$1/ash.a"
    printf '\0' > "$1/ash.b"
}

# used_store FOLDER: a store that has answered the first example
used_store() {
    empty_store "$1"
    "$ashd" serve "$1" --budget 1000 --counters 2 < examples/first.requests > "$scratch/used" 2> "$scratch/error"
    cmp -s "$scratch/used" examples/first.replies
    verdict $? "the first example over the store $(basename "$1")"
}
