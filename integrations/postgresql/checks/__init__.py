"""Tests over real servers, and a load that knows each right answer."""
