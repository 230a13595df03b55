# What ashd registers: names that are taken, stores with another text of registrations, one of them of version 1, and a store
# with a counter and a tally.

asks 'load k 14\nint tally = 1;\nload k 12\nint add = 1;\n'
ends "a registered name" 0 "" try --budget 1000 --counters 2
holds "a registered name is taken" $'refused 303 NameTaken 4\nok seq 1'

asks ''
mkdir "$scratch/older" "$scratch/foreign"
printf '\001ASHOST01\001\0\0\0\0\0\0\0\035\0\0\0\001\0' > "$scratch/older/ash.a"
head -c 28 /dev/zero >> "$scratch/older/ash.a"
printf '\001ASHOST01\001\0\0\0\0\0\0\0\047\0\0\0\002\0\012\0\0\0service 2\n' > "$scratch/foreign/ash.a"
head -c 24 /dev/zero >> "$scratch/foreign/ash.a"
for folder in older foreign; do
    printf '\0' > "$scratch/$folder/ash.b"
    keep "$scratch/$folder" "$scratch/before"
    ends "serve a store with another text ($folder)" 1 "ashd: 504 OtherInterface" serve "$scratch/$folder" --budget 1 --counters 0
    same "a store with another text stays ($folder)" "$scratch/$folder" "$scratch/before"
done
overwrite '\003' 21 "$scratch/foreign/ash.a"
ends "damage before another text" 1 "ashd: 503 Damaged" serve "$scratch/foreign" --budget 1 --counters 0
overwrite '\002' 21 "$scratch/foreign/ash.a"
ends "create over a store with another text" 1 "ashd: 502 AlreadyThere" create "$scratch/foreign"

# A counter and a tally, which are stored byte for byte. The body of the record that adds the script has 64 bytes more than the
# script: 36 of a module without a source, 11 of a global that holds an object, and 17 of the counter. That of the call has 53: 28
# of a call that changes no global, 8 of the service, and 17 of the counter.
store=$scratch/counted
source='Counter@ g = Counter(7); void f() { g.add(tally(4)); }'
module="\\001\\001m\\$(printf %o ${#source})\\0\\0\\0$source\\001\\0\\0\\0\\006\\001\\0\\0\\0\\0\\0\\0\\0"
object='\001\0\0\0\001\0\0\0\0\0\0\0\002\001\0\004\0'
empty_store "$store"
empty_store "$scratch/wanted"
record "$scratch/wanted/ash.a" $((64 + ${#source})) 1 "$module" '\0\0' 1 "$object\\007\\0\\0\\0"
record "$scratch/wanted/ash.a" 53 2 '\0' '\001\0\0\0\004\0\004\0\0\0' 1 "$object\\013\\0\\0\\0"
asks "load m ${#source}\n$source\ncall m f\n"
ends "serve a counter and a tally" 0 "" serve "$store" --budget 1000 --counters 1
holds "a counter and a tally" $'ok seq 1\nok seq 2'
same "the bytes of a counter and a tally" "$store" "$scratch/wanted"
asks 'seq\n'
ends "serve a counter without a box" 1 "ashd: 505 PoolShort" serve "$store" --budget 1000 --counters 0
holds "no reply without a box" ""
same "a counter without a box stays" "$store" "$scratch/wanted"
asks 'object 1\nget m g\ncall m f\nobject 1\ndiscard m\nobject 1\n'
ends "serve a counter again" 0 "" serve "$store" --budget 1000 --counters 1
holds "a counter that is found" "$(printf '%s\n' 'ok object 1 Counter count 1 state 0b000000' 'ok object 1' 'ok seq 3' \
    'ok object 1 Counter count 1 state 13000000' 'ok seq 4 dropped 1' 'refused 407 NoObject')"
asks 'object 1\nseq\n'
ends "serve without a counter" 0 "" serve "$store" --budget 1000 --counters 0
holds "no box is needed then" $'refused 407 NoObject\nok 4'

# A call that changes one global beside a counter: the record has neither the counter nor the service, and 44 bytes.
store=$scratch/beside
source='int n = 0; Counter@ g = Counter(7); void f() { n = 1; }'
asks "load m ${#source}\n$source\n"
empty_store "$store"
ends "serve a counter beside a number" 0 "" serve "$store" --budget 1000 --counters 1
keep "$store" "$scratch/beside_wanted"
record "$scratch/beside_wanted/ash.a" 39 2 '\003\001m\001\0\0\0\001\001\0\0\0' '\0\0' 1
asks 'call m f\nget m n\nobject 1\n'
ends "serve a call beside a counter" 0 "" serve "$store" --budget 1000 --counters 1
holds "a call beside a counter" $'ok seq 2\nok 1\nok object 1 Counter count 1 state 07000000'
same "the bytes of a call beside a counter" "$store" "$scratch/beside_wanted"

# The last number was given: that is found before an empty pool.
empty_store "$scratch/spent"
overwrite '\377\377\377\377\377\377\377\377' 226 "$scratch/spent/ash.a"
asks 'load m 26\nvoid f() { Counter c(1); }\ncall m f\n'
ends "serve a store whose last number was given" 0 "" serve "$scratch/spent" --budget 1000 --counters 0
holds "the last number was given" $'ok seq 1\nexception NumbersSpent f 1 seq 2'
