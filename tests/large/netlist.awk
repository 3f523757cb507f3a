# A netlist of `pads` pads and `logic` logic blocks, in which each logic block reads two nets. `comments` lines of comment come before each
# block, and `globals` names that no pin has come after .global, a hundred on each line.
BEGIN {
    for (at = 1; at <= globals; at++) printf "%s g%d%s", (at % 100 == 1 ? ".global" : ""), at, (at % 100 == 0 || at == globals ? "\n" : "")
    for (pad = 1; pad <= pads; pad++) {
        for (line = 0; line < comments; line++) print "# pad"
        printf ".input p%d\npinlist: i%d\n", pad, pad
    }
    for (block = 1; block <= logic; block++) {
        for (line = 0; line < comments; line++) print "# logic"
        near = block > 1 ? "n" (block - 1) : "i1"
        far = block > pads ? "n" (block * 7919 % (block - 1) + 1) : "i" block
        printf ".clb b%d\npinlist: %s %s n%d\nsubblock: b%d 0 1 2\n", block, near, far, block, block
    }
}
