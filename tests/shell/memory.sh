# Each allocation is refused in turn, until a run meets no refusal. That run ends as $whole says; one that can do without the
# allocation that is refused may end so too.

empty_store "$scratch/empty"
mkdir "$scratch/other"
cc -shared -fPIC -o "$scratch/refuse_memory.so" tests/refuse_memory.c -ldl
verdict $? "the library that refuses memory"

# refused NUMBER WORD..: refuses the allocation of this number of ashd on these words, and sets $end to how that ends; whether
# there was such an allocation
refused() {
    local number=$1
    shift
    rm -f "$scratch/was_refused"
    REFUSE=$number REFUSED="$scratch/was_refused" LD_PRELOAD="$scratch/refuse_memory.so" \
        "$ashd" "$@" < "$scratch/input" > "$scratch/output" 2> "$scratch/error"
    end="$?/$(cat "$scratch/error")/$(tr '\n' ';' < "$scratch/output")"
    [ -e "$scratch/was_refused" ]
}

# unrefused NAME: the last run met no refusal, and ended as $whole says
unrefused() {
    [ ! -e "$scratch/was_refused" ] && [ "$end" = "$whole" ]
    verdict $? "$1 that no refusal meets: $end"
}

asks ''
refused 1 try --budget 1 --counters 0
verdict $? "an allocation of this program that is refused"

# finds COUNTERS REQUESTS WANTED WHEN: by these requests this is found in the other store, after an allocation was refused
finds() {
    local found
    found=$(printf "$2" | "$ashd" serve "$scratch/other" --budget 1000 --counters "$1" | tr '\n' ';')
    [ "$found" = "$3" ]
    verdict $? "what is found after allocation $number was refused$4: $found"
}

# Over disks in memory a disk that finds none is a disk that fails. A refusal before the commit changes nothing; after
# one in the commit the host must be opened again.
cp examples/first.requests "$scratch/input"
whole="0//ok seq 1;ok 7 seq 2;ok 7;ok;"
for number in $(seq 1 10000); do
    refused "$number" try --budget 1000 --counters 2 || break
    case $end in
        "1/ashd: 509 NoMemory/" | "1/ashd: 507 DeviceFailed/") verdict 0 "allocation $number refused, before the run" ;;
        "0//refused 509 NoMemory;refused 401 NoModule;refused 401 NoModule;ok;") verdict 0 "allocation $number refused, in the load" ;;
        "0//refused 50"[79]" "*";refused 508 Reopen;refused 508 Reopen;ok;") verdict 0 "allocation $number refused, in the load's commit" ;;
        "0//ok seq 1;refused 509 NoMemory;ok 2;ok;") verdict 0 "allocation $number refused, in the call" ;;
        "0//ok seq 1;refused 50"[79]" "*";refused 508 Reopen;ok;") verdict 0 "allocation $number refused, in the call's commit" ;;
        "$whole") verdict 0 "allocation $number refused, and not needed" ;;
        *) verdict 1 "allocation $number refused: $end" ;;
    esac
done
unrefused "a run"

# The making of a store. After a refusal a store can be made, or is there.
whole="0//created;"
for number in $(seq 1 10000); do
    rm -f "$scratch/other/"*
    refused "$number" create "$scratch/other" || break
    case $end in
        "1/ashd: 509 NoMemory/") "$ashd" create "$scratch/other" > /dev/null 2>&1 ;;
        "$whole") ;;
        *) verdict 1 "allocation $number refused in create: $end" ;;
    esac
    same "the store after allocation $number was refused" "$scratch/other" "$scratch/empty"
done
unrefused "a create"

# A check. A script is accepted or refused only where there is memory to say so.
printf 'class A { B b; } class B { A@ a; }' > "$scratch/script"
whole="1//refused 309 CyclicType A B;"
for number in $(seq 1 10000); do
    refused "$number" check "$scratch/script" || break
    case $end in
        "1/ashd: 509 NoMemory/") ;;
        "$whole") ;;
        *) verdict 1 "allocation $number refused in check: $end" ;;
    esac
done
unrefused "a check"

# A run over a store. Memory that is refused is no failure of a file, and what was answered is found afterwards.
whole="0//ok seq 1;ok 7 seq 2;ok 7;ok;"
for number in $(seq 1 10000); do
    keep "$scratch/empty" "$scratch/other"
    refused "$number" serve "$scratch/other" --budget 1000 --counters 2 || break
    case $end in
        "1/ashd: 509 NoMemory/") answered=0 ;;
        "0//refused 509 NoMemory;refused 401 NoModule;refused 401 NoModule;ok;") answered=0 ;;
        "0//refused 509 NoMemory;refused 508 Reopen;refused 508 Reopen;ok;") answered=0 ;;
        "0//ok seq 1;refused 509 NoMemory;ok 2;ok;") answered=1 ;;
        "0//ok seq 1;refused 509 NoMemory;refused 508 Reopen;ok;") answered=1 ;;
        "$whole") answered=2 ;;
        *) verdict 1 "allocation $number refused in serve: $end"; continue ;;
    esac
    finds 2 'seq\n' "ok $answered;" ""
done
unrefused "a run over a store"

# A discard takes no memory but for its commit.
asks 'load m 0\n\ndiscard m\nget m n\nseq\nquit\n'
whole="0//ok seq 1;ok seq 2;refused 401 NoModule;ok 2;ok;"
for number in $(seq 1 10000); do
    refused "$number" try --budget 1000 --counters 2 || break
    case $end in
        "1/ashd: 509 NoMemory/" | "1/ashd: 507 DeviceFailed/") verdict 0 "allocation $number refused, before the discard's run" ;;
        "0//refused 509 NoMemory;refused 401 NoModule;refused 401 NoModule;ok 0;ok;") verdict 0 "allocation $number refused, in the load before a discard" ;;
        "0//refused 50"[79]" "*";refused 508 Reopen;refused 508 Reopen;ok 0;ok;") verdict 0 "allocation $number refused, in the commit before a discard" ;;
        "0//ok seq 1;refused 50"[79]" "*";refused 508 Reopen;ok 1;ok;") verdict 0 "allocation $number refused, in the discard's commit" ;;
        "$whole") verdict 0 "allocation $number refused, and not needed in a discard" ;;
        *) verdict 1 "allocation $number refused in a discard: $end" ;;
    esac
done
unrefused "a discard"

# Snapshots. One that is refused since memory ran out changes nothing, and the next request is handled; over disks in
# memory a write of one may fail.
asks "$(head -n 2 examples/first.requests)\nsnapshot\ncall m f 5\nsnapshot\nget m n\nquit\n"
whole="0//ok seq 1;ok;ok 7 seq 2;ok;ok 7;ok;"
for number in $(seq 1 10000); do
    refused "$number" try --budget 1000 --counters 2 || break
    case $end in
        "1/ashd: 509 NoMemory/" | "1/ashd: 507 DeviceFailed/") verdict 0 "allocation $number refused, before a run with snapshots" ;;
        "0//refused 509 NoMemory;ok;refused 401 NoModule;ok;refused 401 NoModule;ok;") verdict 0 "allocation $number refused, in the load before a snapshot" ;;
        "0//refused 50"[79]" "*";refused 508 Reopen;refused 508 Reopen;refused 508 Reopen;refused 508 Reopen;ok;") verdict 0 "allocation $number refused, in the commit before a snapshot" ;;
        "0//ok seq 1;refused 509 NoMemory;ok 7 seq 2;ok;ok 7;ok;") verdict 0 "allocation $number refused, in a snapshot" ;;
        "0//ok seq 1;refused 507 DeviceFailed;refused 508 Reopen;refused 508 Reopen;refused 508 Reopen;ok;") verdict 0 "allocation $number refused, in the write of a snapshot" ;;
        "0//ok seq 1;ok;refused 509 NoMemory;ok;ok 2;ok;") verdict 0 "allocation $number refused, in the call after a snapshot" ;;
        "0//ok seq 1;ok;refused 50"[79]" "*";refused 508 Reopen;refused 508 Reopen;ok;") verdict 0 "allocation $number refused, in the commit after a snapshot" ;;
        "0//ok seq 1;ok;ok 7 seq 2;refused 509 NoMemory;ok 7;ok;") verdict 0 "allocation $number refused, in a second snapshot" ;;
        "0//ok seq 1;ok;ok 7 seq 2;refused 507 DeviceFailed;refused 508 Reopen;ok;") verdict 0 "allocation $number refused, in the write of a second snapshot" ;;
        "$whole") verdict 0 "allocation $number refused, and not needed with snapshots" ;;
        *) verdict 1 "allocation $number refused in a run with snapshots: $end" ;;
    esac
done
unrefused "a run with snapshots"

# A store with several records, which is opened, and answers a request between two snapshots. Where memory is refused before
# that, the files stay as they are; where it is refused later, what was answered is found.
used_store "$scratch/several"
asks 'call m f 1\ncall m f 1\ncall m f 1\ncall m f 1\n'
ends "four requests more" 0 "" serve "$scratch/several" --budget 1000 --counters 2
asks 'get m n\nsnapshot\ncall m f 1\nsnapshot\nget m n\nseq\n'
whole="0//ok 11;ok;ok 12 seq 7;ok;ok 12;ok 7;"
for number in $(seq 1 10000); do
    keep "$scratch/several" "$scratch/other"
    refused "$number" serve "$scratch/other" --budget 1000 --counters 2 || break
    case $end in
        "1/ashd: 509 NoMemory/")
            same "the files after allocation $number was refused, before a run" "$scratch/other" "$scratch/several"
            wanted="ok 11;ok 6;"
            ;;
        "0//ok 11;refused 509 NoMemory;ok 12 seq 7;ok;ok 12;ok 7;") wanted="ok 12;ok 7;" ;;
        "0//ok 11;ok;refused 509 NoMemory;ok;ok 11;ok 6;") wanted="ok 11;ok 6;" ;;
        "0//ok 11;ok;refused 509 NoMemory;refused 508 Reopen;refused 508 Reopen;ok 6;") wanted="ok 11;ok 6;" ;;
        "0//ok 11;ok;ok 12 seq 7;refused 509 NoMemory;ok 12;ok 7;") wanted="ok 12;ok 7;" ;;
        "$whole") wanted="ok 12;ok 7;" ;;
        *) verdict 1 "allocation $number refused over several records: $end"; continue ;;
    esac
    finds 2 'get m n\nseq\n' "$wanted" " over several records"
done
unrefused "a run over several records"

# A module with objects. Where memory is refused before a request changes anything, the next one is handled; where it is refused
# while one does, the state is lost, and what was answered before is found.
source='class A { int v; } A@ a = A(); array<A@> l; void f() { A@ b = A(); b.v = a.v + 1; @a = b; l.insertLast(b); }'
array='ok object 2 array count 1'
asks "load m ${#source}\n$source\ncall m f\nobject 2\ncall m f\nobject 2\nseq\n"
no='refused 509 NoMemory' lost='refused 508 Reopen'
whole="0//ok seq 1;ok seq 2;$array object 3;ok seq 3;$array object 3 object 4;ok 3;"
for number in $(seq 1 10000); do
    keep "$scratch/empty" "$scratch/other"
    refused "$number" serve "$scratch/other" --budget 1000 --counters 0 || break
    case $end in
        "1/ashd: 509 NoMemory/") answered=0 ;;
        "0//$no;refused 401 NoModule;refused 407 NoObject;refused 401 NoModule;refused 407 NoObject;ok 0;") answered=0 ;;
        "0//$no;$lost;$lost;$lost;$lost;ok 0;") answered=0 ;;
        "0//ok seq 1;$no;$array;ok seq 2;$array object 3;ok 2;") answered=2 ;;
        "0//ok seq 1;$no;$lost;$lost;$lost;ok 1;") answered=1 ;;
        "0//ok seq 1;ok seq 2;$no;ok seq 3;$array object 3 object 4;ok 3;") answered=3 ;;
        "0//ok seq 1;ok seq 2;$array object 3;$no;$array object 3;ok 2;") answered=2 ;;
        "0//ok seq 1;ok seq 2;$array object 3;$no;$lost;ok 2;") answered=2 ;;
        "0//ok seq 1;ok seq 2;$array object 3;ok seq 3;$no;ok 3;") answered=3 ;;
        "$whole") answered=3 ;;
        *) verdict 1 "allocation $number refused over objects: $end"; continue ;;
    esac
    case $answered in
        0) wanted="ok 0;refused 407 NoObject;" ;;
        1) wanted="ok 1;$array;" ;;
        2) wanted="ok 2;$array object 3;" ;;
        *) wanted="ok 3;$array object 3 object 4;" ;;
    esac
    finds 0 'seq\nobject 2\n' "$wanted" " over objects"
done
unrefused "a run over objects"
