# Each allocation of the tests of stores with host objects that are refused memory is refused in turn. They are those of
# refusals.rt. CRASH_TESTS names the program with the tests, else it is the one in the checkout.

. tests/shell/refusing.sh
most=20000
refuse_tests ash_crash_tests "${CRASH_TESTS:-$top/crates/ash_crash_tests/out/ash_crash_tests_tests}"
