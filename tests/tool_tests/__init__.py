"""Tests of what stands beside the proved program: a module for each tool or subject.

`tests/tools` runs them all, side by side. One module or one test by itself, from the top of the checkout:

    python3 -m unittest tests.tool_tests.test_converter
    python3 -m unittest tests.tool_tests.test_converter.Grants.test_a_grant_that_is_not_aligned_is_refused

The program under test is the one that PAPR_PROGRAM names, and the library for C the one that PAPR_LIBRARY
names; without them, those that the checkout has built. What needs one that is missing is skipped, and so is
what needs a command that isn't installed. A module that must not run beside others has the line
`ALONE = True`.
"""
