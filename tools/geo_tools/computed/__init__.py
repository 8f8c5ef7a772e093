"""Runs that the definitions of crates/geo_base compute, inside the checker."""
