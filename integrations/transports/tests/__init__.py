"""Tests over real servers, which they start on loopback and end by their process ids."""
