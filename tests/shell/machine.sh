# Each allocation of the tests of the machine that are refused memory is refused in turn. They are those of refusals.rt.
# MACHINE_TESTS names the program with the tests, else it is the one in the checkout.

. tests/shell/refusing.sh
most=20000
refuse_tests ash_machine_tests "${MACHINE_TESTS:-$top/crates/ash_machine_tests/out/ash_machine_tests_tests}"
