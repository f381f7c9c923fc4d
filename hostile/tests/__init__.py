"""Tests of hostile use."""
