"""Tests of the page: requests by hand, and the page itself in headless Chromium."""
