"""Tests of the scripts of flow/."""
