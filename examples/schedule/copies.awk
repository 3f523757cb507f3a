# Writes COPIES copies of a netlist side by side, as a large design whose nets are like those of a real circuit:
#     awk -v COPIES=6 -f schedule/copies.awk NAME.net > LARGE.net
# Blocks and nets get the number of their copy behind their names. Global nets are shared: the first copy's pads drive them, and the input
# pads that drive them in the other copies are left out. The architecture stays the same. Lines of subblocks are left out.
BEGIN { lines = 0; if (!COPIES) COPIES = 2 }
{
  if (sub(/\\$/, "")) { held = held $0 " "; next }
  $0 = held $0; held = ""
  sub(/#.*/, "")
  if (NF == 0 || $1 == "subblock:") next
  if ($1 == ".global") for (i = 2; i <= NF; i++) global[$i] = 1
  $1 = $1
  line[lines++] = $0
}
END {
  for (copy = 0; copy < COPIES; copy++) for (i = 0; i < lines; i++) {
    many = split(line[i], word, " ")
    if (word[1] == ".global") {
      if (copy == 0) print line[i]
    } else if (word[1] != "pinlist:") {
      split(line[i + 1], pin, " ")
      left_out = copy > 0 && word[1] == ".input" && (pin[2] in global)
      if (!left_out) print word[1], word[2] "_" copy
    } else if (!left_out) {
      printf "pinlist:"
      for (j = 2; j <= many; j++) printf " %s", word[j] == "open" || (word[j] in global) ? word[j] : word[j] "_" copy
      print ""
    }
  }
}
