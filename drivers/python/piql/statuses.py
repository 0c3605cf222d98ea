"""What each status of a run says, for whoever started it. With 0 and 1 the run went to its end."""

MEANINGS = {
    2: "bad command line; nothing was read or written",
    3: "a read of the script failed; the statements that were read whole are made and reported",
    4: "a write of the reports failed; what is out is a first part of them",
    5: "a call of the store failed; the next opening makes the statement whole or not at all",
    6: "the store has a pair that no run of this version writes; the line `damaged` has its key",
    7: "there was no memory; the statement at hand is made whole or not at all",
    8: "the script has more than 16,777,216 bytes; the statements that end within them are made and reported",
}
