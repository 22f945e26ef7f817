"""Reduces what liblockrecord.so recorded to plans, and asks lockexplore about them."""
