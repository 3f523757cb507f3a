# The stages of a report of vplace as a table: awk -f stages.awk NAME.report. Columns: the number of the stage, its temperature, its range,
# the share of its moves that were accepted, in percent, and the cost after it. The frozen stage is the last, at temperature 0; its line in
# a report has neither a number nor a temperature.
BEGIN { print "stage temperature range accepted cost" }
$1 == "stage" || $1 == "frozen" {
  first = $1 == "stage" ? 3 : 2
  if (first == 3) number = $2; else { number++; said["t"] = 0 }
  for (i = first; i < NF; i += 2) said[$i] = $(i + 1)
  printf "%d %s %s %.2f %s\n", number, said["t"], said["range"], 100 * said["accepted"] / said["moves"], said["cost"]
}
