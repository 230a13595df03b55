# Each allocation of the tests of stores with services that are refused memory is refused in turn. They are those of
# refusals.rt. BOX_TESTS names the program with the tests, else it is the one in the checkout.

. tests/shell/refusing.sh
refuse_tests ash_box_tests "${BOX_TESTS:-$top/crates/ash_box_tests/out/ash_box_tests_tests}"
