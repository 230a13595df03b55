# Release points, found by how many objects live at once. A row of tests/rows/releases has how many objects of a script live at
# once at the most, those of its globals among them, and the function that raises ObjectLimit where one of them is too many; then
# come a bar and the script, whose function `f` is run beside as many other objects as leave room for all of its own, and beside
# one more. `last` raises an exception after `f`, so that all frames go at once.
. tests/shell/asking.sh
budget=5000
max_objects=4096

making="class A { } A@ g; int one(A@ a) { return 1; } int two(A@ a, A@ b) { return 2; }
bool last() { f(); return 1 / 0 == 0; } $holding"
making=${making//$'\n'/ }

# release PLACE COUNT-AND-FUNCTION SCRIPT
release() {
    local others=$((max_objects - ${2% *}))
    ask_load "$1" ok m "$making$3"
    ask "$1" "exception ObjectLimit ${2#* } 1" "call m hold $((others + 1))"
    ask "$1" ok "discard m"
    ask_load "$1" ok m "$making$3"
    ask "$1" "exception DivideByZero last 1" "call m hold $others"
    ask "$1" ok "discard m"
}

for file in $(chosen tests/rows/releases/*.rows); do
    anew
    rows_of "$file" release
    check_run "$file"
done
