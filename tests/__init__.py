"""Tests that run what the repository builds."""
