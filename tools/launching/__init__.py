"""What ./locale_numbers does beside starting a proved program: builds, trials, and books of other data."""
