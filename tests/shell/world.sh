# The world of examples/world: its session, in which the program is killed, and what a folder must have for a new store.
# WORLD names the program, else it is the one that was built beside ashd.

world=$(realpath -m "${WORLD:-$(dirname "$ashd")/../../ash_world/out/ash_world}")
[ -x "$world" ]
verdict $? "there is no program $world"
[ -x "$world" ] || return 0

for round in $(seq 20); do
    rm -rf "$scratch/world"
    mkdir "$scratch/world"
    python3 examples/world/session.py "$world" "$scratch/world" > "$scratch/output" 2> "$scratch/error"
    cmp -s "$scratch/output" examples/world/session.expected
    verdict $? "session $round: $(diff "$scratch/output" examples/world/session.expected | head -n 5; tail -n 1 "$scratch/error")"
    [ "$failed" -eq 0 ] || break
done

# opens NAME STATUS OUTPUT: the program ends so on the folder of the session, and prints this
opens() {
    printf 'seq\nget quests done\n' | "$world" "$scratch/world" > "$scratch/output" 2> "$scratch/error"
    [ ${PIPESTATUS[1]} -eq "$2" ]
    verdict $? "$1: $(cat "$scratch/error")"
    holds "$1" "$3"
}
opens "the world after its session" 0 $'ok 29\nok 1'
keep_world() { cp "$scratch/world/world.a" "$scratch/a"; cp "$scratch/world/world.b" "$scratch/b"; }
keep_world
rm "$scratch/world/world.b"
opens "a world without its second file" 0 $'ok 29\nok 1'
cp "$scratch/b" "$scratch/world/world.b"
: > "$scratch/world/world.a"
opens "a world whose first file is cut to nothing is not made anew" 1 ""
[ ! -s "$scratch/world/world.a" ]
verdict $? "nothing is written over a file that was cut"
cp "$scratch/a" "$scratch/world/world.a"
opens "a world whose file was put back" 0 $'ok 29\nok 1'

"$world" > "$scratch/output" 2> "$scratch/error" < /dev/null
[ $? -eq 1 ]
verdict $? "without a folder"
