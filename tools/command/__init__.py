"""The command ./jelmorand: it reads texts and jobs, asks the proved programs, says their answers (docs/COMMAND.md)."""
