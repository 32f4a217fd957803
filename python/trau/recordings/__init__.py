"""Recordings from outside (slots, captures, files of frames, sound), to the lines of calls and back."""
