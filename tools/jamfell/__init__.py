"""Jamfell's bytes as text, and its answers in words. docs/RULES.md has every layout, number and name that is used here."""
