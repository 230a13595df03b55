# Rows of sources, each with how `ashd check` ends on it: each file of tests/rows/check is one subject. A row is `ok`, the
# fault, or `read`, a bar between two spaces, and the source. The source is the rest of the line as it is: nothing is
# escaped, so no line feed can be in it.

for file in $(chosen tests/rows/check/*); do
    rows_of "$file" row
done
