"""Tests of the package, one file for each part of it, and what they share."""
