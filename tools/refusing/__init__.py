"""Refuses memory, reads and writes of built programs, and judges how they end."""
