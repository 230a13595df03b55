# Stores in folders: made once, served, and found again.

store=$scratch/store
empty_store "$scratch/empty"
mkdir "$store"
asks ''

ends "serve a folder without a store" 1 "ashd: 507 DeviceFailed" serve "$store" --budget 1000 --counters 0
[ -z "$(ls -A "$store")" ]
verdict $? "nothing is made where nothing is served"
ends "create in a folder that is not there" 1 "ashd: 507 DeviceFailed" create "$scratch/none"
ends "serve a folder that is not there" 1 "ashd: 507 DeviceFailed" serve "$scratch/none" --budget 1000 --counters 0
touch "$store/ash.a" "$store/ash.b"
asks 'seq\n'
ends "serve two empty files" 1 "ashd: 501 NoGeneration" serve "$store" --budget 1000 --counters 0
holds "no reply where there is no store" ""
asks ''
ends "create" 0 "" create "$store"
holds "the word of create" created
same "the bytes of an empty store" "$store" "$scratch/empty"
ends "create twice" 1 "ashd: 502 AlreadyThere" create "$store"
holds "no word of a create that is refused" ""
same "a create over a store changes nothing" "$store" "$scratch/empty"
mkdir "$scratch/-x"
(cd "$scratch" && "$ashd" create -- -x > output 2> error)
verdict $? "a folder after --"
same "the store in that folder" "$scratch/-x" "$scratch/empty"

cp examples/first.requests "$scratch/input"
ends "serve" 0 "" serve --budget=1000 --counters=2 -- "$store"
cmp -s "$scratch/output" examples/first.replies
verdict $? "the first example over a store"
asks 'get m n\nseq\n'
ends "serve again" 0 "" serve "$store" --counters 0 --budget 1000
holds "what is found after a run" $'ok 7\nok 2'
keep "$store" "$scratch/before"
ends "create over a store that was used" 1 "ashd: 502 AlreadyThere" create "$store"
same "a create over a used store changes nothing" "$store" "$scratch/before"

# The example with an object, on a copy of that store.
keep "$store" "$scratch/second"
cp examples/objects.requests "$scratch/input"
ends "the second example" 0 "" try --budget 1000 --counters 0
cmp -s "$scratch/output" examples/objects.replies
verdict $? "the replies of the second example"
ends "serve the second example" 0 "" serve "$scratch/second" --budget 1000 --counters 2
holds "the second example over a store" $'ok seq 3\nok 70 seq 4\nok object 1\nok object 1 shop.Purse count 1 gold 70\nok'
asks 'object 1\nget m n\n'
ends "serve the second example again" 0 "" serve "$scratch/second" --budget 1000 --counters 2
holds "what is found of it" $'ok object 1 shop.Purse count 1 gold 70\nok 7'

# The example of README.md, on a store of its own.
mkdir "$scratch/shop"
asks ''
ends "create the store of the shop" 0 "" create "$scratch/shop"
cp examples/shop.requests "$scratch/input"
ends "serve the shop" 0 "" serve "$scratch/shop" --budget 1000 --counters 2
cmp -s "$scratch/output" examples/shop.replies
verdict $? "the replies of the shop"
asks 'get shop gold\n'
ends "serve the shop again" 0 "" serve "$scratch/shop" --budget 1000 --counters 2
holds "what is found of the shop" "ok 71"

asks 'load b 10\nint n = 1;\nload a 10\nint n = 2;\nload c 10\nint n = 3;\ndiscard b\ndiscard z\n'
keep "$store" "$scratch/other"
ends "serve several modules" 0 "" serve "$scratch/other" --budget 1000 --counters 0
holds "several modules" $'ok seq 3\nok seq 4\nok seq 5\nok seq 6\nrefused 401 NoModule'
asks 'get m n\nget a n\nget b n\nget c n\nseq\n'
ends "serve several modules again" 0 "" serve "$scratch/other" --budget 1000 --counters 0
holds "several modules that are found" $'ok 7\nok 2\nrefused 401 NoModule\nok 3\nok 6'

asks 'call m f 1\n'
keep "$store" "$scratch/other"
ends "serve without ticks" 0 "" serve "$scratch/other" --budget 0 --counters 4096
holds "the budget of a store is the one that is given" "aborted f 1 seq 3"

# The bytes of both files. An image has 228 bytes without a module, 236 with one that has no source, and 286 with that of the
# first example. The body of a record has 36 if it adds a module without a source, 88 with that of the first example, 39 if it
# changes a global, and 30 if it removes a module. A file has 22 around its image, and a record 5 around its body.
# sizes NAME FOLDER BYTES BYTES: the two files have so many bytes
sizes() {
    [ "$(wc -c < "$2/ash.a")" -eq "$3" ] && [ "$(wc -c < "$2/ash.b")" -eq "$4" ]
    verdict $? "$1: $(wc -c < "$2/ash.a") and $(wc -c < "$2/ash.b") bytes"
}
module='\001\001m\0\0\0\0\0\0'
sizes "the store after the first example" "$store" $((250 + 93 + 44)) 1

wanted=$scratch/wanted
empty_store "$scratch/bytes"
empty_store "$wanted"
record "$wanted/ash.a" 36 1 '\001\001m\0\0\0\0\0\0'
asks 'load m 0\n\n'
ends "serve a load" 0 "" serve "$scratch/bytes" --budget 1000 --counters 0
same "the bytes after a load" "$scratch/bytes" "$wanted"
sizes "a load" "$scratch/bytes" $((250 + 41)) 1
asks 'snapshot x\nseq\n'
ends "serve what is no snapshot" 0 "" serve "$scratch/bytes" --budget 1000 --counters 0
holds "what is no snapshot" $'refused 601 BadRequest\nok 1'
same "it changes nothing" "$scratch/bytes" "$wanted"
generation 2 236 1 "$module" > "$wanted/ash.b"
asks 'snapshot\nsnapshot x\nseq\n'
ends "serve a snapshot" 0 "" serve "$scratch/bytes" --budget 1000 --counters 0
holds "a snapshot" $'ok\nrefused 601 BadRequest\nok 1'
same "the bytes after a snapshot" "$scratch/bytes" "$wanted"
record "$wanted/ash.b" 30 2 '\002\001m'
asks 'discard m\n'
ends "serve a discard" 0 "" serve "$scratch/bytes" --budget 1000 --counters 0
same "the bytes after a discard" "$scratch/bytes" "$wanted"
sizes "a discard" "$scratch/bytes" $((250 + 41)) $((258 + 35))
generation 3 228 2 '\0' | dd of="$wanted/ash.a" conv=notrunc status=none
asks 'snapshot\n'
ends "serve a second snapshot" 0 "" serve "$scratch/bytes" --budget 1000 --counters 0
same "the bytes after a second snapshot" "$scratch/bytes" "$wanted"
asks 'get m n\nseq\n'
ends "serve after two snapshots" 0 "" serve "$scratch/bytes" --budget 1000 --counters 0
holds "what is found after two snapshots" $'refused 401 NoModule\nok 2'
same "an opening writes nothing" "$scratch/bytes" "$wanted"

# What a crash may leave: gates that are neither 0 nor 1. An opening writes 0 over them, and nothing else.
keep "$store" "$scratch/torn"
overwrite '\002' $((250 + 93 + 44 - 1)) "$scratch/torn/ash.a"
overwrite '\377' 0 "$scratch/torn/ash.b"
asks ''
ends "serve a store with torn gates" 0 "" serve "$scratch/torn" --budget 1000 --counters 0
same "torn gates are written over" "$scratch/torn" "$store"

# A record of a whole state, as an older ashd left it, in the place of the second record. What follows is of what changes.
used='\001\001m\055\0\0\0int n = 2; int f(int k) { n += k; return n; }\001\0\001\007\0\0\0'
keep "$store" "$scratch/whole"
truncate -s $((250 + 93)) "$scratch/whole/ash.a"
printf '\037\001\0\0\001' >> "$scratch/whole/ash.a"
image 2 "$used" >> "$scratch/whole/ash.a"
printf '\0' >> "$scratch/whole/ash.a"
keep "$scratch/whole" "$scratch/before"
record "$scratch/before/ash.a" 39 3 '\003\001m\001\0\0\0\001\010\0\0\0'
asks 'get m n\nseq\ncall m f 1\n'
ends "serve a record of a whole state" 0 "" serve "$scratch/whole" --budget 1000 --counters 0
holds "what is found of a record of a whole state" $'ok 7\nok 2\nok 8 seq 3'
same "a record after one of a whole state" "$scratch/whole" "$scratch/before"

# A store of version 1 with its state in one image of the first generation, before what is left of a longer one.
mkdir "$scratch/older"
generation 1 286 2 "$used" > "$scratch/older/ash.a"
overwrite '\001' 21 "$scratch/older/ash.a"
printf 'what is left of a longer file\001' >> "$scratch/older/ash.a"
printf '\0' > "$scratch/older/ash.b"
asks 'get m n\nseq\ncall m f 1\n'
ends "serve a store of version 1 in one image" 0 "" serve "$scratch/older" --budget 1000 --counters 0
holds "what is found in a store of version 1 in one image" $'ok 7\nok 2\nok 8 seq 3'
asks 'get m n\nseq\n'
ends "serve it again" 0 "" serve "$scratch/older" --budget 1000 --counters 0
holds "what is found in it again" $'ok 8\nok 3'

# A store of version 1 is moved to version 2 when it is opened: the first file stays, and the second gets the state.
empty_store "$scratch/moved"
overwrite '\001' 21 "$scratch/moved/ash.a"
keep "$scratch/moved" "$scratch/before"
generation 2 228 0 '\0' > "$scratch/before/ash.b"
asks 'seq\n'
ends "serve a store of version 1" 0 "" serve "$scratch/moved" --budget 1000 --counters 0
holds "what is found in a store of version 1" "ok 0"
same "a store of version 1 is moved" "$scratch/moved" "$scratch/before"
ends "serve it again" 0 "" serve "$scratch/moved" --budget 1000 --counters 0
same "a store that was moved stays" "$scratch/moved" "$scratch/before"
empty_store "$scratch/last"
overwrite '\377\377\377\377\377\377\377\377' 9 "$scratch/last/ash.a"
overwrite '\001' 21 "$scratch/last/ash.a"
keep "$scratch/last" "$scratch/before"
ends "serve the last generation of version 1" 1 "ashd: 511 GenerationSpent" serve "$scratch/last" --budget 1000 --counters 0
same "the last generation of version 1 stays" "$scratch/last" "$scratch/before"

# A store of an ashd whose hosts had no services: none is in its image, whatever is registered.
mkdir "$scratch/unserved"
generation 1 220 0 '\0' '\0\0' > "$scratch/unserved/ash.a"
printf '\377' > "$scratch/unserved/ash.b"
keep "$scratch/unserved" "$scratch/before"
asks ''
ends "serve a store without services" 1 "ashd: 503 Damaged" serve "$scratch/unserved" --budget 1000 --counters 2
same "a store without services stays" "$scratch/unserved" "$scratch/before"

# A tally that is in the image is in the next one.
generation 1 228 0 '\0' '\001\0\002\0\004\0\005\0\0\0' > "$scratch/unserved/ash.a"
keep "$scratch/unserved" "$scratch/before"
generation 2 228 0 '\0' '\001\0\002\0\004\0\005\0\0\0' > "$scratch/before/ash.b"
asks 'snapshot\n'
ends "serve a store with a tally of 5" 0 "" serve "$scratch/unserved" --budget 1000 --counters 0
holds "its snapshot" "ok"
same "a tally of 5 stays" "$scratch/unserved" "$scratch/before"

# A generation of the last number: no other comes after it.
empty_store "$scratch/last"
overwrite '\377\377\377\377\377\377\377\377' 9 "$scratch/last/ash.a"
asks 'snapshot\nload m 0\n\nsnapshot\nseq\n'
ends "serve the last generation" 0 "" serve "$scratch/last" --budget 1000 --counters 0
holds "the last generation" $'refused 511 GenerationSpent\nok seq 1\nrefused 511 GenerationSpent\nok 1'
