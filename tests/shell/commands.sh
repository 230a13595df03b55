# The two commands at the top of the repository, as a newcomer calls them.

# A folder of programs without rt.
mkdir "$scratch/bin"
for program in bash dirname readlink env; do
    ln -s "$(command -v "$program")" "$scratch/bin/$program"
done
# the interpreter itself, since a script that picks one may want other programs
ln -s "$(python3 -c 'import sys; print(sys.executable)')" "$scratch/bin/python3"

(cd "$scratch" && HOME=/nonexistent "$top/first-example" > output 2> error)
verdict $? "the first example, on a build that is not proved: $(tail -n 3 "$scratch/error")"
while IFS= read -r line; do
    grep -qF -- "$line" "$scratch/output"
    verdict $? "first-example shows '$line'"
done < <(cat examples/first.replies; echo 'int n = 2; int f(int k) { n += k; return n; }'; echo 'call m f 5'; echo 'This build was not proved.')

for command in first-example "ashd.sh try --budget 1 --counters 0"; do
    (cd / && PATH="$scratch/bin" "$top/"$command < /dev/null > "$scratch/output" 2> "$scratch/error")
    [ $? -eq 127 ] && grep -q 'the command rt is not on the PATH' "$scratch/error"
    verdict $? "$command where rt is not found: $(cat "$scratch/error")"
done
