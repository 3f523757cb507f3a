# Makes the random design of a number: awk -v number=17 -f design.awk
# Into the current folder go an architecture, a netlist, perhaps a location file, and `words`, the words of the command
# line, one on each line. All is drawn from the number with whole numbers below 2^53, so each awk makes the same files.
# Every fifth design is faulty; the last four of these have two faults. A run has at most about 2,000 moves.

# A whole number from 0 to n - 1.
function below(n) {
    state = state * 48271 % 2147483647
    return int(state / 64) % n
}

function chance(percent) {
    return below(100) < percent
}

# One of the words of a list that blanks separate.
function one_of(list,    words) {
    return words[1 + below(split(list, words, " "))]
}

# The same of numbers below 2^53, to be compared as numbers.
function number_of(list) {
    return one_of(list) + 0
}

# The faults that the design is to have go to `faulty`.
function draw_faults(    list, names) {
    split("", faulty)
    names = "NoIoRat RepeatedIoRat BadNumber BadPinLine NoPins NumberTooLarge " \
        "UnknownWord NoName PinlistWithoutBlock MissingPinlist PinCount SubblockWithoutLogic DuplicateBlock " \
        "NoDriver TwoDrivers " \
        "TooFewLogicSites TooFewPadSites SizeOutOfRange " \
        "BadHeader WrongSize UnknownBlock Repeated NoSuchSite WrongKind Taken BadLine BadLabel " \
        "InitOutOfRange ExitOutOfRange AlphaOutOfRange MovesOutOfRange BatchOutOfRange WorkersOutOfRange " \
        "BadDigit TooManyPlaces DecimalTooLarge"
    if (number % 5 != 0) return
    if (number / 5 <= split(names, list, " ")) {
        faulty[list[number / 5]] = 1
    } else {
        faulty[one_of(names)] = 1
        faulty[one_of(names)] = 1
    }
    is_faulty = 1
}

# How the texts of this design look: line ends, comments, joined lines, tabs.
function draw_style() {
    line_end = chance(20) ? "\r\n" : "\n"
    comments = chance(40) ? 20 : 0
    joins = chance(40) ? 25 : 0
    tabs = chance(25) ? 40 : 0
}

function gap() {
    if (chance(tabs)) return "\t"
    return chance(10) ? "  " : " "
}

# One line of a text in the style of the design: cut in two at a gap, with a comment after it.
function line_of(line,    at, tail) {
    if (chance(joins) && (at = match(line, /[ \t]/))) {
        tail = chance(comments) ? " # goes on" : ""
        line = substr(line, 1, at) "\\" tail line_end " " substr(line, at + 1)
    }
    if (chance(comments)) line = line (chance(50) ? " " : "") "# " one_of("a comment with \\")
    if (chance(10)) line = line " "
    return line line_end
}

# Between lines: sometimes a line without meaning.
function idle_line() {
    if (chance(comments)) return "# " one_of("pads pins blocks") line_end
    return chance(5) ? line_end : ""
}

function write_file(name, text) {
    if (chance(10)) sub(/\r?\n$/, "", text)
    ORS = ""
    print text > name
    close(name)
}

function sides(    text, i) {
    for (i = 1 + below(3); i > 0; i--) text = text gap() one_of("top bottom left right")
    return text
}

# The pins of a logic block, and the lines that give them.
function draw_pins(    text, i, inputs, outputs) {
    inputs = 1 + below(4)
    outputs = chance(8) ? 0 : 1 + below(2)
    pins = 0
    while (inputs + outputs > 0) {
        if (below(inputs + outputs) < inputs) {
            inputs--
            pin_kind[++pins] = "inpin"
        } else {
            outputs--
            pin_kind[++pins] = "outpin"
        }
    }
    for (i = 1; i <= pins; i++) {
        text = text line_of(pin_kind[i] gap() "class:" gap() below(10) (chance(15) ? gap() "global" : "") sides()) idle_line()
    }
    if ("NoPins" in faulty) text = ""
    if ("BadNumber" in faulty) text = text line_of("inpin class: " one_of("left -1 1.5 0x2") " top")
    if ("BadPinLine" in faulty) {
        text = text line_of(one_of("inpin outpin") " " one_of("class class:") " 1 " one_of("up global leftright"))
    }
    if ("NumberTooLarge" in faulty) text = text line_of("outpin class: " one_of("65536 99999999999999999999") " top")
    return text
}

function draw_arch(    text, ratio) {
    io_rat = ("TooFewPadSites" in faulty) ? 1 : 1 + below(3)
    ratio = "io_rat" gap() (chance(10) ? "0" : "") io_rat (chance(10) ? " and more" : "")
    if (chance(40)) text = line_of(one_of("chan_width_io chan_width_x subblocks_per_clb") gap() "1 1 uniform")
    if ("RepeatedIoRat" in faulty) text = text line_of("io_rat 2")
    if (!("NoIoRat" in faulty)) {
        if (chance(70)) text = text line_of(ratio) draw_pins(); else text = text draw_pins() line_of(ratio)
    } else {
        text = text draw_pins()
    }
    if (chance(20)) text = text line_of("switch 0 buffered: yes R: 1.5")
    write_file("t.arch", text)
}

# Kinds and names of the blocks, and which nets are driven.
function draw_blocks(    b, p, letter) {
    blocks = is_faulty ? 6 + below(8) : (chance(5) ? 0 : 1 + below(14))
    letter = one_of("b u_ x.y [ \\")
    for (b = 1; b <= blocks; b++) {
        kind[b] = one_of("input output clb clb clb")
        if (is_faulty && b < 4) kind[b] = one_of("input clb")
        if (is_faulty && b == 1) kind[b] = "input"
        if ("TooFewPadSites" in faulty) kind[b] = one_of("input output")
        if (is_faulty && b == 2) kind[b] = "clb"
        name[b] = (kind[b] == "output" ? "out:" : letter) b
        if (kind[b] == "clb") logic++; else pads++
        if (kind[b] == "input" && chance(90)) net_on[b, 1] = source[++sources] = "n" b
        for (p = 1; p <= pins && kind[b] == "clb"; p++) {
            if (pin_kind[p] == "outpin" && chance(80)) net_on[b, p] = source[++sources] = "n" b "_" p
        }
    }
}

# A net that some block drives; the first one often, so that some nets are wide.
function driven_net() {
    return source[chance(25) ? 1 : 1 + below(sources)]
}

# The nets of the pins that drive nothing.
function draw_readers(    b, p) {
    for (b = 1; b <= blocks; b++) {
        if (kind[b] == "output" && sources > 0 && chance(90)) net_on[b, 1] = driven_net()
        for (p = 1; p <= pins && kind[b] == "clb"; p++) {
            if (pin_kind[p] == "outpin" || sources == 0 || !chance(70)) continue
            net_on[b, p] = (p > 1 && ((b, p - 1) in net_on) && chance(20)) ? net_on[b, p - 1] : driven_net()
        }
    }
    if ("NoDriver" in faulty) net_on[2, reading_pin()] = "nowhere"
    if ("TwoDrivers" in faulty) net_on[1, 1] = net_on[3, kind[3] == "clb" ? driving_pin() : 1] = "both"
}

function reading_pin(    p) {
    for (p = 1; pin_kind[p] != "inpin"; p++) continue
    return p
}

function driving_pin(    p) {
    for (p = 1; p < pins && pin_kind[p] != "outpin"; p++) continue
    return p
}

function pinlist(b,    text, p) {
    text = "pinlist:"
    for (p = 1; p <= (kind[b] == "clb" ? pins : 1); p++) {
        text = text gap() (((b, p) in net_on) ? net_on[b, p] : "open")
    }
    if ("PinCount" in faulty && b == 3) text = text gap() "open"
    return line_of(text)
}

# The lines of one block.
function block_lines(b,    text, inside) {
    text = line_of("." kind[b] gap() name[b] (chance(5) ? " ignored" : ""))
    inside = line_of("subblock: " name[b] " 0 1 open")
    if (kind[b] == "clb" && chance(20)) text = text inside
    if (!("MissingPinlist" in faulty && b == 4)) text = text idle_line() pinlist(b)
    if (kind[b] == "clb" && chance(20)) text = text inside
    if ("SubblockWithoutLogic" in faulty && b == 1) text = text inside
    if ("UnknownWord" in faulty && b == 2) text = text line_of(one_of(".latch pinlist .Input clb") " a")
    if ("PinlistWithoutBlock" in faulty && b == 3) text = text pinlist(b)
    if ("NoName" in faulty && b == 3) text = text "." one_of("input output clb") line_end
    if ("DuplicateBlock" in faulty && b == 5) text = text line_of(".output " name[1])
    return text
}

function global_line(    text, i) {
    text = ".global"
    for (i = 1 + below(2); i > 0; i--) text = text gap() ((sources > 0 && chance(80)) ? driven_net() : "unused")
    return line_of(text)
}

function draw_net(    text, b, globals_at) {
    draw_blocks()
    draw_readers()
    globals_at = chance(35) ? below(blocks + 1) : -1
    for (b = 1; b <= blocks; b++) {
        if (globals_at == b) text = text global_line()
        text = text idle_line() block_lines(b)
    }
    if (globals_at == 0) text = text global_line()
    net_file = ("BadLabel" in faulty) ? one_of("a#b.net t.net\\") : "t.net"
    if ("BadLabel" in faulty && chance(50)) net_file = "t t.net"
    write_file(net_file, text)
}

function is_large_enough() {
    return nx * ny >= logic && 2 * (nx + ny) * io_rat >= pads
}

# The size of the array: the least square, or one that the command line gives.
function draw_size() {
    for (nx = ny = 1; !is_large_enough(); ny = nx) nx++
    if (chance(60) && !is_faulty) return
    if (is_faulty && chance(50)) return
    do { nx = 1 + below(7); ny = 1 + below(7) } while (!is_large_enough())
    is_given = 1
}

function give_size(    columns, rows) {
    columns = nx
    rows = ny
    if ("TooFewLogicSites" in faulty) { columns = logic - 1; rows = 1; is_given = 1 }
    if ("TooFewPadSites" in faulty) { columns = rows = 1; is_given = 1 }
    if ("SizeOutOfRange" in faulty) { columns = one_of("0 1001 65535"); rows = one_of("0 3 1000"); is_given = 1 }
    if (!is_given) return
    give("nx", columns)
    give("ny", rows)
}

# Draws a lawful site, not yet taken, for a block: `site`.
function draw_site(b,    tries, i) {
    for (tries = 0; tries < 100; tries++) {
        if (kind[b] == "clb") {
            site = (1 + below(nx)) " " (1 + below(ny)) " 0"
        } else {
            i = below(2 * (nx + ny))
            if (i < 2 * ny) site = (i < ny ? 0 : nx + 1) " " (1 + i % ny)
            else site = (1 + (i - 2 * ny) % nx) " " (i < 2 * ny + nx ? 0 : ny + 1)
            site = site " " below(io_rat)
        }
        if (!(site in is_taken)) {
            is_taken[site] = 1
            return 1
        }
    }
    return 0
}

# The number of another block whose sites are those of block b.
function like(b,    other) {
    for (other = blocks; (kind[other] == "clb") != (kind[b] == "clb"); other--) continue
    return other
}

# Lines of a location file that are refused; they name the first block, which no earlier line names.
function faulty_locations(    text, own) {
    draw_site(1)
    own = name[1] " " site
    if ("UnknownBlock" in faulty) text = text line_of("nobody " site)
    if ("Repeated" in faulty) text = text line_of(own) line_of(own (chance(50) ? " free" : ""))
    if ("NoSuchSite" in faulty) text = text line_of(name[1] " " one_of("0 9") " 0 " below(2))
    if ("WrongKind" in faulty) text = text line_of(name[1] " 1 1 0")
    if ("Taken" in faulty) text = text line_of(own (chance(50) ? " free" : "")) line_of(name[like(1)] " " site)
    if ("BadLine" in faulty) text = text line_of(name[1] one_of("|1|1 |0|1|0|fixed |0|-1|0 |0|1|0|free|free |0|1|65536"))
    gsub(/\|/, " ", text)
    return text
}

function header(    text) {
    if (!chance(30) && !("BadHeader" in faulty) && !("WrongSize" in faulty)) return ""
    text = line_of("Netlist file: " one_of("a.net b") "   Architecture file: " one_of("a.arch c"))
    if ("BadHeader" in faulty) return text line_of("Array size: " nx " X " ny " logic blocks")
    return text line_of("Array size: " (nx + ("WrongSize" in faulty)) " x " ny " logic blocks")
}

# The location file: some blocks, in any order, fixed or only started.
function draw_locations(    text, b, line, wants_fault, share) {
    wants_fault = ("BadHeader" in faulty) + ("WrongSize" in faulty) + ("UnknownBlock" in faulty) + ("Repeated" in faulty) \
        + ("NoSuchSite" in faulty) + ("WrongKind" in faulty) + ("Taken" in faulty) + ("BadLine" in faulty)
    if (!wants_fault && !chance(50)) return
    share = number_of("0 20 50 100")
    if (wants_fault) share = 30
    for (b = 1 + (wants_fault > 0); b <= blocks; b++) {
        if ("Taken" in faulty && b == like(1)) continue
        if (!chance(share) || !draw_site(b)) continue
        line = idle_line() line_of(name[b] gap() site (chance(40) ? gap() "free" : (chance(20) ? " #" b : "")))
        text = chance(50) ? text line : line text
    }
    if (wants_fault) text = text faulty_locations()
    write_file("t.pads", header() text)
    give("pads", "t.pads")
}

# A number with `places` digits after the point, written in one of the possible ways.
function decimal(value, unit,    whole, part) {
    whole = int(value / unit)
    part = substr(unit + value % unit, 2)
    if (chance(70)) while (part ~ /0$/) part = substr(part, 1, length(part) - 1)
    if (part == "" && chance(80)) return whole ""
    if (whole == 0 && part != "" && chance(20)) return "." part
    return whole "." part
}

# A number that cannot be read, in place of one of the three decimal ones.
function spoil(option, text,    fault) {
    if (option != spoiled) return text
    if ("BadDigit" in faulty) return one_of("1e3 - 1,5 1.2.3 +1 adaptiv .")
    if ("TooManyPlaces" in faulty) return text (text ~ /\./ ? "" : ".") "00000"
    if ("DecimalTooLarge" in faulty) return one_of("18446744073709551.616 99999999999999999999999")
    return text
}

# Moves for each temperature: `most` is a bound on them.
function draw_moves(    inner) {
    if ("MovesOutOfRange" in faulty) {
        if (chance(50)) give("moves", one_of("0 1073741825 18446744073709551615"))
        else give("inner", one_of("0 10001 18446744073709551615"))
        most = 1
    } else if (chance(50)) {
        most = number_of("1 2 3 7 20 64 65 130")
        give("moves", most)
        if (chance(20)) give("inner", one_of("0 5 20000"))
    } else {
        inner = chance(30) ? 10 : 1 + below(3)
        if (inner != 10 || chance(50)) give("inner", inner)
        most = inner * blocks * 3 + 1
    }
}

# The exit temperature that gives `hot` hot stages, if there are that many.
function exit_after(hot, start, factor,    t, next_t) {
    if (hot == 0) return start + 1 + below(1000)
    t = start
    for (next_t = int(t * factor / 1000); hot > 1 && next_t > 0; hot--) {
        t = next_t
        next_t = int(t * factor / 1000)
    }
    return next_t + 1 + below(t - next_t)
}

# Temperatures and the factor, with few enough stages.
function draw_schedule(    start, factor, hot, last) {
    start = number_of("1 50 9000 20000 100000 1000000 1073741824")
    if (start > 100 && start < 1073741824) start += below(start)
    factor = number_of("1 300 500 800 950 999")
    hot = chance(15) ? 0 : 1 + below(12)
    if (hot * most > 2000) hot = int(2000 / most)
    last = exit_after(hot, start, factor)
    if (chance(25) && most < 40) {
        factor = "adaptive"
        last = int(start / (1 + below(15))) + (start < 20)
    }
    if (last > 1073741824) last = 1073741824
    spoiled = ("BadDigit" in faulty) ? "init-t" : (("TooManyPlaces" in faulty) ? "exit-t" : "alpha-t")
    if ("InitOutOfRange" in faulty) start = number_of("0 1073741825")
    if ("ExitOutOfRange" in faulty) last = number_of("0 1073741825")
    if ("AlphaOutOfRange" in faulty) factor = number_of("0 1000 1200")
    give("init-t", spoil("init-t", decimal(start, 10000)))
    give("exit-t", spoil("exit-t", decimal(last, 10000)))
    give("alpha-t", spoil("alpha-t", factor == "adaptive" ? factor : decimal(factor, 1000)))
}

# A seed of up to 64 bits.
function seed(    text, i) {
    if (chance(40)) return below(1000)
    if (chance(40)) return one_of("0 4294967295 4294967296 9007199254740993 18446744073709551615 9223372036854775808")
    for (i = 0; i < 19; i++) text = text below(10)
    return "1" substr(text, 2)
}

function draw_options() {
    if (chance(90)) give("seed", seed())
    if ("BatchOutOfRange" in faulty) give("batch", one_of("0 4097 18446744073709551615"))
    else if (chance(70)) give("batch", one_of("1 2 5 16 64 100 1000 4096"))
    if ("WorkersOutOfRange" in faulty) give("workers", one_of("0 65 18446744073709551615"))
    else if (chance(70)) give("workers", one_of("1 2 3 4 8 64"))
}

# An option of the command line is inserted at a random place among those before.
function give(option, value,    at) {
    at = below(++given) + 1
    options[given] = options[at]
    options[at] = chance(15) ? "--" option "=" value : "--" option "\n" value
}

BEGIN {
    state = number * 7919 + 104729
    for (i = 0; i < 20; i++) below(2)
    logic = pads = sources = given = is_given = is_faulty = 0
    draw_faults()
    draw_style()
    draw_arch()
    draw_net()
    draw_size()
    draw_locations()
    give_size()
    draw_moves()
    draw_schedule()
    draw_options()
    give("arch", "t.arch")
    give("net", net_file)
    give("out", "t.place")
    text = "place\n"
    for (i = 1; i <= given; i++) text = text options[i] "\n"
    ORS = ""
    print text > "words"
}
