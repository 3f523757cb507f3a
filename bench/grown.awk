# Writes the netlist of a circuit that grows in rows: each block is a table of four inputs, most of which come from blocks nearby, and
# one in 40 from one of a few pads. The architecture is grown.arch.
# usage: awk -v logic=59000 -f grown.awk
function below(n) {
    # The generator of Park and Miller. Every product is below 2^53.
    seed = (seed * 16807) % 2147483647
    return seed % n
}
function reach(    r, i) {
    r = 1
    for (i = 0; i < 6; i++) {
        if (below(2)) return r
        r *= 2
    }
    return r
}
function near(at, r,    low, high) {
    low = at > r ? at - r : 0
    high = at + r < side ? at + r : side - 1
    return low + below(high - low + 1)
}
function source(x, y,    r, block) {
    if (below(40) == 0) return "i" below(12)
    r = reach()
    block = near(y, r) * side + near(x, r)
    if (block >= logic || block == y * side + x) return "i" below(pads)
    return "n" block
}
BEGIN {
    seed = 20261126
    side = int(sqrt(logic - 1)) + 1
    pads = 2 * side
    for (p = 0; p < pads; p++) print ".input p" p "\npinlist: i" p "\n\n.output o" p "\npinlist: n" below(logic) "\n"
    for (b = 0; b < logic; b++) {
        x = b % side
        y = int(b / side)
        print ".clb b" b "\npinlist: " source(x, y), source(x, y), source(x, y), source(x, y), "n" b "\nsubblock: b" b " 0 1 2 3 4\n"
    }
}
