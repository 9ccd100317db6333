/*
 * A row for each command, in the order of `skarrowith -h`: COMMAND(its name, its options, what is written behind its name, what it
 * prints). An option is a letter, with a colon where a word belongs to it.
 */
COMMAND(list, "", "[FILE]", "the rows of a run bundle")
COMMAND(show, "ct", "[-c] [-t] [FILE]", "what happened in a run: rows with verdicts, positions, warnings")
COMMAND(picture, "o:", "[-o OUT] [FILE]", "the same as a picture, in SVG")
COMMAND(check, "c", "[-c] [FILE]", "what each line is")
COMMAND(read, "c", "[-c] [FILE]", "what each line is, and all that it says")
COMMAND(sweep, "p:o:", "[-p POSITION] [-o OUT] [FILE]", "a bundle without wake-ups and the rows of a position")
COMMAND(salvage, "o:", "[-o OUT] [FILE]", "what can be kept of a bundle that was cut short")
COMMAND(error, "", "M1 M2 S1 S2", "the error of indication")
COMMAND(replay, "p:", "-p POSITION S1 S2 ELAPSED [FILE]", "the error of the real-time method, from a bundle")
