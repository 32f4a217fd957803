"""What all programs share: their words, how they end, and the files that they read and write."""
