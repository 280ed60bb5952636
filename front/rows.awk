# The rows of refusals, in the documents' words (docs/RULES.md 6.1).
BEGIN {
  title[1] = "LINE"; when[1] = "a line is not of a kind that is read at its exact length in legal digits, or lacks its LF"
  title[2] = "ORDER"; when[2] = "a line stands where its kind may not stand"
  title[3] = "COUNT"; when[3] = "there is no task, or there is one task or interrupt too many"
  title[4] = "TWICE"; when[4] = "an id repeats"
  title[5] = "BOARD"; when[5] = "the board has no processors or more than 64, its slot is 0, or its packing rule is above 08"
  title[6] = "RANGE"; when[6] = "a figure of a task or of an interrupt is out of its range"
  title[7] = "SLOT"; when[7] = "a task has a deadline shorter than the slot"
  title[8] = "TIGHT"; when[8] = "a task, charged with the overheads, does not fit into its deadline"
  title[9] = "HORIZON"; when[9] = "the least common multiple of the slot and every period is above 10,000,000"
  title[10] = "BOARDS FULL"; when[10] = "the plan needs more processors than the board has"
  title[11] = "ASK"; when[11] = "the server, processor or reserve that the question names is not there or not allowed"
  title[12] = "ROOM"; when[12] = "the lent output is shorter than the answer"
  title[13] = "ALONE"; when[13] = "a task alone fails with a whole processor to itself, for the interrupts"

  long["01"] = 30; long["02"] = 22; long["03"] = 26; long["05"] = 6; long["06"] = 4; long["07"] = 26
}
