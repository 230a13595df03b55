# Each allocation of the tests of the object table that are refused memory is refused in turn. They are those of refusals.rt.
# OBJECTS_TESTS names the program with the tests, else it is the one in the checkout.

. tests/shell/refusing.sh
refuse_tests ash_objects_tests "${OBJECTS_TESTS:-$top/crates/ash_objects_tests/out/ash_objects_tests_tests}"
