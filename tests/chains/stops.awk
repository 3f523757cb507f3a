# Draws where the run of a design is stopped: awk -v number=17 -f stops.awk REPORT
# The report is that of the unbroken run, and gives the number of moves of a stage and of the run. Prints one to five numbers of moves below
# that of the run, in order, separated by commas. Some are at the end of a stage or at the last move. A few occur twice or are 0: the piece
# that ends there makes no move.

function below(n) {
    state = state * 48271 % 2147483647
    return int(state / 64) % n
}

function draw(    what) {
    what = below(10)
    if (what == 0) return moves - 1
    if (what < 4) return stage * below(int(moves / stage))
    return below(moves)
}

# A number that was not drawn yet, and not 0, at which a piece would make no move; -1 if twenty draws give none.
function new_one(    stop, i) {
    for (i = 0; i < 20; i++) {
        stop = draw()
        if (stop > 0 && !(stop in taken)) return stop
    }
    return -1
}

/^(stage|frozen) / { for (i = 1; i < NF; i++) if ($i == "moves") stage = $(i + 1) }
/^final / { moves = $NF }

END {
    state = number * 6007 + 40961
    for (i = 0; i < 20; i++) below(2)
    count = 1 + below(5)
    for (i = 1; i <= count; i++) {
        # A few pieces make no move: they stop where they begin, or at 0.
        if (below(16) == 0) stop = i > 1 ? at[i - 1] : 0
        else if ((stop = new_one()) < 0) {
            count = i - 1
            break
        }
        taken[stop] = 1
        for (j = i; j > 1 && at[j - 1] > stop; j--) at[j] = at[j - 1]
        at[j] = stop
    }
    # A run of one move can be stopped at 0 alone.
    if (count == 0) at[count = 1] = 0
    text = at[1]
    for (i = 2; i <= count; i++) text = text "," at[i]
    print text
}
