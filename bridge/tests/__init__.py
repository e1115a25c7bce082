"""Tests of the bridge. In the folder `bridge`: `python3 -m unittest`, and `python3 -m unittest tests.test_kept.SaveTest`
for some of them."""
