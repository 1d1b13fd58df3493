"""The text form of a job and its chain book: reading it, writing it, and what to say about it (see tools/MANUAL.md)."""
