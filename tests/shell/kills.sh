# A process that is killed between two requests and within one, and what is found afterwards.

store=$scratch/store
used_store "$store"

coproc killed { exec "$ashd" serve "$store" --budget 1000 --counters 2; }
killed_id=$killed_PID
exec {replies}<&"${killed[0]}" {requests}>&"${killed[1]}"
printf 'call m f 3\n' >&"$requests"
read -r -t 10 called <&"$replies"
[ "$called" = "ok 10 seq 3" ]
verdict $? "a reply before the kill: $called"
keep "$store" "$scratch/before"
asks ''
ends "serve a store that is served" 1 "ashd: 507 DeviceFailed" serve "$store" --budget 1000 --counters 0
ends "create over a store that is served" 1 "ashd: 502 AlreadyThere" create "$store"
same "neither changes the store" "$store" "$scratch/before"
printf 'call m f 4' >&"$requests"
kill -KILL "$killed_id"
{ wait "$killed_id"; } 2> /dev/null
[ $? -eq 137 ]
verdict $? "a process that was killed"
exec {replies}<&- {requests}>&-
asks 'get m n\nseq\ncall m f 1\n'
ends "serve after a kill" 0 "" serve "$store" --budget 1000 --counters 2
holds "what is found after a kill" $'ok 10\nok 3\nok 11 seq 4'

# The same of objects and two modules: what is answered is found, and what was sent in part is not.
store=$scratch/objects
empty_store "$store"
coproc killed { exec "$ashd" serve "$store" --budget 1000 --counters 0; }
killed_id=$killed_PID
exec {replies}<&"${killed[0]}" {requests}>&"${killed[1]}"
source='class A { int v; } A@ a = A(); array<A@> l; void f() { a.v = a.v + 1; l.insertLast(a); }'
printf 'load m %s\n%s\nload k %s\n%s\ncall k f\ndiscard m\ncall k f\ncall k' \
    ${#source} "$source" ${#source} "$source" >&"$requests"
for wanted in 'ok seq 1' 'ok seq 2' 'ok seq 3' 'ok seq 4' 'ok seq 5'; do
    read -r -t 10 called <&"$replies"
    [ "$called" = "$wanted" ]
    verdict $? "a reply before the kill of a host with objects: $called"
done
kill -KILL "$killed_id"
{ wait "$killed_id"; } 2> /dev/null
exec {replies}<&- {requests}>&-
asks 'object 1\nobject 2\nobject 3\nobject 4\nget m a\nget k a\ncall k f\nobject 3\n'
ends "serve a host with objects after a kill" 0 "" serve "$store" --budget 1000 --counters 0
holds "the objects that are found after a kill" "$(printf '%s\n' 'refused 407 NoObject' 'refused 407 NoObject' \
    'ok object 3 k.A count 3 v 2' 'ok object 4 array count 1 object 3 object 3' 'refused 401 NoModule' 'ok object 3' \
    'ok seq 6' 'ok object 3 k.A count 4 v 3')"

# The same of a counter and the tally.
store=$scratch/counted
empty_store "$store"
coproc killed { exec "$ashd" serve "$store" --budget 1000 --counters 2; }
killed_id=$killed_PID
exec {replies}<&"${killed[0]}" {requests}>&"${killed[1]}"
source='int n = 0; Counter@ g = Counter(7); int f(int d) { n = 1; tally(4); g.add(1); return 10 / d; } int t() { return total(); }'
printf 'load m %s\n%s\ncall m f 0\ncall m f 5\ncall m' ${#source} "$source" >&"$requests"
for wanted in 'ok seq 1' 'exception DivideByZero f 1 seq 2' 'ok 2 seq 3'; do
    read -r -t 10 called <&"$replies"
    [ "$called" = "$wanted" ]
    verdict $? "a reply before the kill of a host with a counter: $called"
done
kill -KILL "$killed_id"
{ wait "$killed_id"; } 2> /dev/null
exec {replies}<&- {requests}>&-
asks 'get m n\ncall m t\nobject 1\nseq\n'
ends "serve a host with a counter after a kill" 0 "" serve "$store" --budget 1000 --counters 1
holds "the counter and the tally that are found after a kill" \
    $'ok 1\nok 8 seq 4\nok object 1 Counter count 1 state 09000000\nok 4'

# Kills at random times: within requests and snapshots, between them, and in openings. A call adds 1 to `n`, which was 7 after
# the second request of the first example.
SEED=${SEED:-$RANDOM}
RANDOM=$SEED
echo "kills: with SEED=$SEED"
many=$scratch/many
used_store "$many"

# delay MAX: sleeps for less than so many milliseconds, 1,000 at most
delay() {
    sleep "0.$(printf %03d $((RANDOM % $1)))"
}

# answered FILE NUMBER: the number of the last answer in a file of replies, whose last line may be cut; this one where there
# is none
answered() {
    local last
    last=$(sed -n '$!p' "$1"; [ -n "$(tail -c 1 "$1")" ] || tail -n 1 "$1")
    last=$(sed -n 's/^ok [0-9]* seq \([0-9]*\)$/\1/p' <<< "$last" | tail -n 1)
    echo "${last:-$2}"
}

# kill_in_time ROUND STORE COUNTERS CALL: serves a store with this call again and again, and snapshots between, and kills the
# process at a random time. In three of four rounds that comes after a first reply, so that the process is at work. Each call
# is followed by a `load` that is no request, since replies go out before a load is read. The replies are in $scratch/replies.
kill_in_time() {
    local process
    : > "$scratch/replies"
    yes "$(printf "$4\nload x\n%.0s" {1..6})
snapshot" 2> /dev/null | "$ashd" serve "$2" --budget 1000 --counters "$3" > "$scratch/replies" 2> "$scratch/error" &
    process=$!
    if [ $(($1 % 4)) -ne 0 ]; then
        until [ -s "$scratch/replies" ] || ! kill -0 "$process" 2> /dev/null; do sleep 0.002; done
    fi
    delay 30
    kill -KILL "$process" 2> /dev/null
    { wait "$process"; } 2> /dev/null
}

number=2
for round in $(seq 150); do
    kill_in_time "$round" "$many" 2 'call m f 1'
    last=$(answered "$scratch/replies" "$number")
    found=$(printf 'seq\nget m n\n' | "$ashd" serve "$many" --budget 1000 --counters 2 2>&1 | tr '\n' ' ')
    number=${found#ok }
    number=${number%% *}
    [ "$found" = "ok $number ok $((number + 5)) " ] && [ "$number" -ge "$last" ] && [ "$number" -le $((last + 1)) ]
    verdict $? "kill $round, after the answer $last: $found"
    [ "$failed" -eq 0 ] || break
done
# At least 113 come of the kills after a first reply, however slow the machine is.
[ "$number" -gt 100 ]
verdict $? "requests between kills: $number"

# The same of a script that counts by a global, a counter and the tally, and lets go of a counter in each call: all of them have
# counted the same. Once no counter is left a call ends in an exception, which keeps what it has counted.
counts=$scratch/counts
empty_store "$counts"
source='int n = 0; Counter@ g = Counter(0); array<Counter@> l; void f() { n = n + 1; tally(1); g.add(1); Counter@ c = Counter(n); if (l.length() == 0) { l.insertLast(c); } else { @l[0] = c; } } int t() { return total(); }'
asks "load m ${#source}\n$source\n"
ends "serve a host that counts" 0 "" serve "$counts" --budget 1000 --counters 1
holds "a host that counts" 'ok seq 1'
number=1
for round in $(seq 50); do
    kill_in_time "$round" "$counts" 32 'call m f'
    last=$(sed '$d' "$scratch/replies" | sed -n 's/.* seq \([0-9]*\).*/\1/p' | tail -n 1)
    found=$(printf 'seq\nget m n\nobject 1\n' | "$ashd" serve "$counts" --budget 1000 --counters 2 2>&1 | tr '\n' ' ')
    before=$number
    number=${found#ok }
    number=${number%% *}
    count=$((number - 1))
    state=$(printf %02x $((count & 255)) $((count >> 8 & 255)) $((count >> 16 & 255)) 0)
    [ "$found" = "ok $number ok $count ok object 1 Counter count 1 state $state " ] && [ "$number" -ge "${last:-$before}" ]
    verdict $? "kill $round of a host that counts, after the answer ${last:-$before}: $found"
    [ "$failed" -eq 0 ] || break
done
[ "$number" -gt 38 ]
verdict $? "requests between kills of a host that counts: $number"
asks 'call m t\n'
ends "a host that counts after all kills" 0 "" serve "$counts" --budget 1000 --counters 2
holds "the tally after all kills" "ok $((number - 1)) seq $((number + 1))"

# The same for the making of a store: it is there, or it can be made.
empty_store "$scratch/empty"
asks ''
for round in $(seq 30); do
    rm -rf "$scratch/new"
    mkdir "$scratch/new"
    "$ashd" create "$scratch/new" > "$scratch/output" 2> "$scratch/error" &
    killed_id=$!
    delay 8
    kill -KILL "$killed_id" 2> /dev/null
    { wait "$killed_id"; } 2> /dev/null
    if ! "$ashd" serve "$scratch/new" --budget 1 --counters 0 < "$scratch/input" > /dev/null 2>&1; then
        ends "create after kill $round" 0 "" create "$scratch/new"
    fi
    same "the store after kill $round of create" "$scratch/new" "$scratch/empty"
done

# Batches of three calls and a look, killed at random times: of each batch all is found or nothing, and nothing that was answered is
# lost. The store has objects, a counter and the tally.
batched=$scratch/batched
empty_store "$batched"
asks "load m ${#source}\n$source\n"
ends "serve a host for batches" 0 "" serve "$batched" --budget 1000 --counters 1
holds "a host for batches" 'ok seq 1'
number=1
for round in $(seq 200); do
    kill_in_time "$round" "$batched" 32 $'batch 4\ncall m f\ncall m f\nget m n\ncall m f'
    last=$(sed '$d' "$scratch/replies" | sed -n 's/.* seq \([0-9]*\).*/\1/p' | tail -n 1)
    found=$(printf 'seq\nget m n\nobject 1\n' | "$ashd" serve "$batched" --budget 1000 --counters 2 2>&1 | tr '\n' ' ')
    before=$number
    number=${found#ok }
    number=${number%% *}
    count=$((number - 1))
    state=$(printf %02x $((count & 255)) $((count >> 8 & 255)) $((count >> 16 & 255)) 0)
    [ "$found" = "ok $number ok $count ok object 1 Counter count 1 state $state " ] && [ $((count % 3)) -eq 0 ] \
        && [ "$number" -ge "${last:-$before}" ]
    verdict $? "kill $round within batches, after the answer ${last:-$before}: $found"
    [ "$failed" -eq 0 ] || break
done
[ "$number" -gt 300 ]
verdict $? "requests in batches between kills: $number"
