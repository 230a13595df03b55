# The words that ashd takes, its statuses, and what it prints on standard error.

cp examples/first.requests "$scratch/input"
ends "the first example" 0 "" try --budget 1000 --counters 2
cmp -s "$scratch/output" examples/first.replies
verdict $? "the replies of the first example"
ends "no ticks" 0 "" try --counters 4096 --budget 0
[ "$(head -n 1 "$scratch/output")" = "aborted (init) 1 seq 1" ]
verdict $? "the budget is the one that is given"

asks ''
ends "an empty input" 0 "" try --budget 1000 --counters 2
ends "the options the other way round" 0 "" try --counters 2 --budget 1000
ends "options with an equals sign" 0 "" try --budget=18446744073709551615 --counters=4096
ends "leading zeros" 0 "" try --budget 00000000000000000001 --counters 0
ends "no words" 2 "ashd: usage"
ends "another command" 2 "ashd: usage" run --budget 1 --counters 1
ends "a missing option" 2 "ashd: usage" try --budget 1
ends "an option twice" 2 "ashd: usage" try --budget 1 --budget 1 --counters 1
ends "an abbreviated option" 2 "ashd: usage" try --budg 1 --counters 1
ends "a surplus word" 2 "ashd: usage" try --budget 1 --counters 1 more
ends "a request for help" 2 "ashd: usage" --help
ends "the command help" 2 "ashd: usage" help
ends "a budget of 2^64" 2 "ashd: usage" try --budget 18446744073709551616 --counters 1
ends "a budget of 21 digits" 2 "ashd: usage" try --budget 000000000000000000001 --counters 1
ends "an empty budget" 2 "ashd: usage" try --budget= --counters 1
ends "a budget with a sign" 2 "ashd: usage" try --budget=+1 --counters 1
ends "4097 counters" 2 "ashd: usage" try --budget 1 --counters 4097
ends "a word that is not text" 2 "ashd: usage" try --budget 1 --counters $'\xff'
ends "a folder for the store in memory" 2 "ashd: usage" try "$scratch" --budget 1 --counters 1
ends "create without a folder" 2 "ashd: usage" create
ends "create in an empty name" 2 "ashd: usage" create ""
ends "create in two folders" 2 "ashd: usage" create "$scratch" "$scratch"
ends "create with a budget" 2 "ashd: usage" create "$scratch" --budget 1
ends "serve without a folder" 2 "ashd: usage" serve --budget 1 --counters 1
ends "serve an empty name" 2 "ashd: usage" serve "" --budget 1 --counters 1
ends "serve without options" 2 "ashd: usage" serve "$scratch"
ends "serve two folders" 2 "ashd: usage" serve "$scratch" "$scratch" --budget 1 --counters 1
ends "wrong words before wrong files" 2 "ashd: usage" serve "$scratch/none" --budget 1 --counters 4097
