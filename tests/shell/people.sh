# The program for people: each transcript of tests/people. SIBREULT names the program, else it is the one that was built beside
# ashd.

people=$(realpath -m "${SIBREULT:-$(dirname "$ashd")/../../sibreult/out/sibreult}")
[ -x "$people" ]
verdict $? "there is no program $people"
[ -x "$people" ] || return 0

for transcript in tests/people/*.txt; do
    SIBREULT=$people tests/people/run "$transcript" > "$scratch/output" 2>&1
    verdict $? "$transcript: $(head -n 8 "$scratch/output")"
done
