# Requests over standard input: bytes that no transcript shows, where a run ends, and a conversation over a pipe.

# replied NAME BUDGET REQUESTS REPLY..: a run over these requests, which printf writes, ends well and prints these replies
replied() {
    local name=$1 budget=$2
    asks "$3"
    shift 3
    ends "$name" 0 "" try --budget "$budget" --counters 0
    holds "the replies to $name" "$(printf '%s\n' "$@")"
}
bad='refused 601 BadRequest' missing='refused 401 NoModule'

# What is no request: an empty line, a line with two spaces at its end, and a source that no line feed follows.
replied "requests, and lines that are none" 1000 \
    'seq\n\nget m n\ncall m f 5 true -7\nload m 3\nabc\nload m 2\nabcd\nobject 1\nseq  \nquit\nseq\n' \
    'ok 0' "$bad" "$missing" "$missing" 'refused 104 Unexpected 3' "$bad" 'refused 407 NoObject' "$bad" ok
replied "snapshots, which have no number" 0 'load m 0\n\nsnapshot\nsnapshot x\nsnapshot \nsnapshot\nseq\n' \
    'ok seq 1' ok "$bad" "$bad" ok 'ok 1'
replied "loads of what uses something registered" 1000 \
    'load m 11\nCounter@ c;\nload k 27\nint t() { return total(); }\ncall k t\nget m c\nseq\n' \
    'ok seq 1' 'ok seq 2' 'ok 0 seq 3' 'ok null' 'ok 3'
replied "loads of what uses nothing registered" 1000 'load m 8\nbool b; \nload k 11\nclass A { }\nseq\n' 'ok seq 1' 'ok seq 2' 'ok 2'
replied "looks at objects, and lines that are none" 1000 \
    'load m 23\nclass A { } A@ a = A();\nobject 1\nobject 2\nobject\nobject x\nobject 1 1\nobject 18446744073709551616\nseq\n' \
    'ok seq 1' 'ok object 1 m.A count 1' 'refused 407 NoObject' "$bad" "$bad" "$bad" "$bad" 'ok 1'
replied "loads of what has no tokens, which have no number" 1000 \
    'load m 5\nint "\nload m 4\n/* x\nload m 4\nab\377\376\nload m 27\nint n=999999999999999999999\nseq\n' \
    'refused 101 BadCharacter 4' 'refused 102 UnclosedComment 0' 'refused 101 BadCharacter 2' \
    'refused 103 NumberTooLarge 6' 'ok 0'
replied "a load of nothing" 0 'load m 0\n\nseq\n' 'ok seq 1' 'ok 1'
replied "a load of a byte order mark" 0 'load m 3\n\357\273\277\nseq\n' 'ok seq 1' 'ok 1'

# long_line LENGTH REPLY: a line of so many bytes is replied to with this line, and the request after it is read
long_line() {
    { printf '%*s' "$1" '' | tr ' ' a; printf '\nseq\n'; } > "$scratch/input"
    ends "a line of $1 bytes" 0 "" try --budget 1000 --counters 0
    holds "the reply to a line of $1 bytes" "$2"$'\nok 0'
}
long_line 4096 "refused 601 BadRequest"
long_line 4097 "refused 602 LineTooLong"

# A line that is too long in a batch, a source that no line feed follows, and an empty line.
{ printf 'batch 3\n'; printf '%*s' 4097 '' | tr ' ' a; printf '\nload m 2\nabcd\n\nseq\n'; } > "$scratch/input"
ends "a batch of lines that are none" 0 "" try --budget 1000 --counters 0
holds "the replies to them" "refused 602 LineTooLong"$'\n'"$bad"$'\n'"$bad"$'\nok 0'

# cut_off REQUESTS REPLIES: a run ends inside the last request, which is not replied to
cut_off() {
    asks "$1"
    ends "requests cut by the end: $1" 1 "ashd: 603 Truncated" try --budget 1000 --counters 0
    holds "the replies before the cut request: $1" "$2"
}
cut_off 'seq\nse' "ok 0"
cut_off 'seq\nload m 4\nabc' "ok 0"
cut_off 'seq\nload m 3\nabc' "ok 0"
cut_off 'seq\nload m 3\nabcd' "ok 0"
cut_off 'load m 45\nint n = 2; int f(int k) { n += k; return n; }\nload k 3\nab' "ok seq 1"
cut_off 'load m 45\nint n = 2; int f(int k) { n += k; return n; }\nbatch 2\ncall m f 1\n' "ok seq 1"
cut_off 'seq\nbatch 2\nseq\nse' "ok 0"
cut_off 'seq\nbatch 1\n' "ok 0"
cut_off 'seq\nbatch 1' "ok 0"
cut_off 'seq\nbatch 1\nload m 4\nabc' "ok 0"
cut_off 'seq\nbatch 1\nload m 3\nabc' "ok 0"

# A batch that the end of the input cuts is not carried out: the store is as it was.
empty_store "$scratch/cut"
asks 'load m 45\nint n = 2; int f(int k) { n += k; return n; }\ncall m f 5\nbatch 2\ncall m f 1\n'
ends "a batch cut by the end, over a store" 1 "ashd: 603 Truncated" serve "$scratch/cut" --budget 1000 --counters 0
holds "the replies before it" $'ok seq 1\nok 7 seq 2'
asks 'get m n\nseq\n'
ends "the store that it left" 0 "" serve "$scratch/cut" --budget 1000 --counters 0
holds "the replies of the store that it left" $'ok 7\nok 2'

asks 'seq\nseq'
ends "a request cut by the end" 1 "ashd: 603 Truncated" try --budget 1 --counters 0
holds "the reply before the cut request" "ok 0"

replied "discards" 1 'load m 10\nint n = 7;\ndiscard m\nget m n\ndiscard m\ndiscard\ndiscard m n\nseq\n' \
    'ok seq 1' 'ok seq 2' "$missing" "$missing" "$bad" "$bad" 'ok 2'
replied "a quit, after which nothing is answered" 1 'seq\nquit\nseq\n' 'ok 0' ok

"$ashd" try --budget 1 --counters 0 < "$scratch/input" > /dev/full 2> "$scratch/error"
[ $? -eq 1 ] && [ "$(cat "$scratch/error")" = "ashd: 606 Write" ]
verdict $? "a full disk as standard output"

"$ashd" try --budget 1 --counters 0 < / > /dev/null 2> "$scratch/error"
[ $? -eq 1 ] && [ "$(cat "$scratch/error")" = "ashd: 605 Read" ]
verdict $? "a folder as standard input"

# A program that is talked to over pipes.
begin_talk() {
    coproc talk { "$ashd" try --budget 1000 --counters 0; }
    exec {replies}<&"${talk[0]}" {requests}>&"${talk[1]}"
}

end_talk() {
    exec {replies}<&- {requests}>&-
    wait
}

# Each reply comes before the next request is sent.
begin_talk
printf 'load m 10\nint n = 7;\n' >&"$requests"
read -r -t 10 loaded <&"$replies"
printf 'get m n\n' >&"$requests"
read -r -t 10 value <&"$replies"
printf 'quit\n' >&"$requests"
read -r -t 10 left <&"$replies"
[ "$loaded/$value/$left" = "ok seq 1/ok 7/ok" ]
verdict $? "a conversation over a pipe: $loaded/$value/$left"
end_talk

# A reply comes while the next request is not whole: of a line a part is there, and of a load the line without its source.
begin_talk
printf 'seq\nse' >&"$requests"
read -r -t 10 first <&"$replies"
printf 'q\nseq\nload m 10\nint' >&"$requests"
read -r -t 10 second <&"$replies"
read -r -t 10 third <&"$replies"
printf ' n = 7;\nload k 0\n' >&"$requests"
read -r -t 10 loaded <&"$replies"
printf '\nquit\n' >&"$requests"
read -r -t 10 empty <&"$replies"
read -r -t 10 left <&"$replies"
[ "$first/$second/$third/$loaded/$empty/$left" = "ok 0/ok 0/ok 0/ok seq 1/ok seq 2/ok" ]
verdict $? "requests that come in parts: $first/$second/$third/$loaded/$empty/$left"
end_talk

# A reply comes while the batch after it is not whole, and the replies to a batch once it is.
begin_talk
printf 'seq\nbatch 2\nseq\n' >&"$requests"
read -r -t 10 first <&"$replies"
printf 'load m 10\nint n = 7;\n' >&"$requests"
read -r -t 10 second <&"$replies"
read -r -t 10 third <&"$replies"
printf 'quit\n' >&"$requests"
read -r -t 10 left <&"$replies"
[ "$first/$second/$third/$left" = "ok 0/ok 0/ok seq 1/ok" ]
verdict $? "a batch that comes in parts: $first/$second/$third/$left"
end_talk
