# Sources, each with what a load of it is answered and what a check of it prints. In a row of tests/rows/load a source `runs`
# or is refused for this fault.

# reply PLACE WANTED SOURCE: a load of this source, over what the program registers, is replied to with this line
reply() {
    printf 'load m %s\n%s\n' ${#3} "$3" > "$scratch/input"
    ends "$1: a run" 0 "" try --budget 1000 --counters 2
    printf '%s\n' "$2" | cmp -s - "$scratch/output"
    verdict $? "$1: a load: $2 | $3 ($(cat "$scratch/output"))"
}

# loaded PLACE WANTED SOURCE: what a check and a load of this source, in which each character is a byte, come to
loaded() {
    case $2 in
        runs) row "$1" ok "$3"; reply "$1" "ok seq 1" "$3" ;;
        *) row "$1" "$2" "$3"; reply "$1" "refused $2" "$3" ;;
    esac
}

for file in $(chosen tests/rows/load/*); do
    rows_of "$file" loaded
done
loaded "an empty source" runs ""

# number COUNT: a function that returns a number in so many brackets, in $source
number() {
    local opened closed
    printf -v opened '%*s' "$1" ''
    printf -v closed '%*s' "$1" ''
    source="int f() { return ${opened// /(}1${closed// /)}; }"
}
number 16
loaded "a number in 16 brackets" runs "$source"
number 63
loaded "a number in 63 brackets" runs "$source"
number 64
loaded "a number in 64 brackets" "106 TooDeep 81" "$source"

printf -v source '%*s' 65536 ''
loaded "65,536 blanks" runs "$source"
loaded "65,537 blanks" "107 SourceTooLong" "$source "

# The script in docs/LANGUAGE.md with an interface, an array, an index and a cast.
IFS= read -r -d '' source << 'END'
interface Sink {
    void put(int x);
}

class Log : Sink {
    array<int> all;

    void put(int x) { all.insertLast(x); }
}

Sink@ sink = Log();

int first() {
    Log@ log = cast<Log>(sink);
    return log.all[0];
}
END
loaded "a script with an interface, an array, an index and a cast" runs "$source"
