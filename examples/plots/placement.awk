# Draws a placement as SVG: awk -f placement.awk NAME.place > NAME.svg, or, with the boxes of its nets, awk -f placement.awk NAME.net
# NAME.place > NAME.svg. Pads stand round the logic blocks, those of one position in rows of one length: as many rows, and as long, as the
# highest place of any pad needs. The box of a net covers the columns and rows that its cost counts: a pad counts at the nearest logic site.
# Global nets have none. With more than LARGE blocks (2000) the boxes would hide each other: then each logic site has a shade by the number of
# boxes that cover it, and its title says the number and the block. NETS=NAME,NAME, as a variable of awk or of the environment, marks single
# nets in both: a strong box, and a dot at each terminal.
BEGIN {
  edge = 3; count = 0; most = 0; nets = 0; top = 0
  if (!LARGE) LARGE = 2000
  if (NETS == "") NETS = ENVIRON["NETS"]
  marks = split(NETS, mark, ",")
  for (i = 1; i <= marks; i++) marked[mark[i]] = 1
  colours = split("#c0392b #2471a3 #1e8449 #7d3c98 #b9770e #117a65", colour, " ")
}
FNR == 1 { reads_nets = ARGC == 3 && ++files == 1 }
reads_nets {
  sub(/#.*/, ""); sub(/[ \t\r]+$/, "")
  if (sub(/\\$/, "")) { held = held $0 " "; next }
  $0 = held $0; held = ""
  if ($1 ~ /^\.(input|output|clb)$/) block = $2
  else if ($1 == ".global") for (i = 2; i <= NF; i++) global[$i] = 1
  else if ($1 == "pinlist:") for (i = 2; i <= NF; i++) if ($i != "open") {
    if (!($i in pins)) net[nets++] = $i
    pins[$i] = pins[$i] " " block
  }
  next
}
/^Array size:/ { nx = $3 + 0; ny = $5 + 0; next }
/^Netlist/ || /^#/ || NF < 4 { next }
{ x[count] = $2 + 0; y[count] = $3 + 0; place[count] = $4 + 0; title[count] = $1; number[$1] = count++; if ($4 > most) most = $4 }
function text(name) { gsub(/&/, "\\&amp;", name); gsub(/</, "\\&lt;", name); return name }
function box(left, top, side, colour, name) {
  printf "<rect x=\"%g\" y=\"%g\" width=\"%g\" height=\"%g\" fill=\"%s\" stroke=\"black\"><title>%s</title></rect>\n", left, top, side, side, colour, text(name)
}
function clipped(at, end) { return at < 1 ? 1 : at > end ? end : at }
# The columns and rows that the cost of a net counts, in x1, x2, y1, y2; none if x2 is 0.
function net_bounds(n,   many, on, i, b, cx, cy) {
  many = split(pins[net[n]], on, " "); x1 = nx + 1; y1 = ny + 1; x2 = y2 = 0
  for (i = 1; i <= many; i++) {
    if (!(on[i] in number)) continue
    b = number[on[i]]; cx = clipped(x[b], nx); cy = clipped(y[b], ny)
    if (cx < x1) x1 = cx; if (cx > x2) x2 = cx; if (cy < y1) y1 = cy; if (cy > y2) y2 = cy
  }
}
# The inset of a box differs from net to net, so that boxes of the same cells do not hide each other.
function net_box(n,   inset) {
  net_bounds(n)
  if (x2 == 0) return
  inset = edge + 1 + n % 8 * 2
  printf "<rect x=\"%d\" y=\"%d\" width=\"%d\" height=\"%d\" fill=\"none\" stroke=\"%s\" stroke-opacity=\"0.5\"><title>%s</title></rect>\n", x1 * cell + inset, h - (y2 + 1) * cell + inset, (x2 - x1 + 1) * cell - 2 * inset, (y2 - y1 + 1) * cell - 2 * inset, colour[n % colours + 1], text(net[n])
}
# A net that was asked for.
function net_mark(n,   many, on, i, b) {
  net_bounds(n)
  if (x2 == 0) return
  printf "<rect x=\"%d\" y=\"%d\" width=\"%d\" height=\"%d\" fill=\"none\" stroke=\"%s\" stroke-width=\"3\"><title>%s</title></rect>\n", x1 * cell, h - (y2 + 1) * cell, (x2 - x1 + 1) * cell, (y2 - y1 + 1) * cell, colour[n % colours + 1], text(net[n])
  many = split(pins[net[n]], on, " ")
  for (i = 1; i <= many; i++) if (on[i] in number) {
    b = number[on[i]]
    printf "<circle cx=\"%g\" cy=\"%g\" r=\"%g\" fill=\"%s\"><title>%s</title></circle>\n", (x[b] + 0.5) * cell, h - (y[b] + 0.5) * cell, cell / 4 < 3 ? 3 : cell / 4, colour[n % colours + 1], text(on[i])
  }
}
# From white to dark red.
function shade(share) { return sprintf("#%02x%02x%02x", 255 - 132 * share, 255 - 225 * share, 255 - 235 * share) }
# Counts the boxes over each site: what changes from a corner on, then sums along columns and rows.
function densities(   n, i, j) {
  for (n = 0; n < nets; n++) if (!(net[n] in global)) {
    net_bounds(n)
    if (x2 == 0) continue
    over[x1, y1]++; over[x2 + 1, y1]--; over[x1, y2 + 1]--; over[x2 + 1, y2 + 1]++
  }
  for (i = 1; i <= nx; i++) for (j = 1; j <= ny; j++) over[i, j] += over[i - 1, j]
  for (i = 1; i <= nx; i++) for (j = 1; j <= ny; j++) {
    over[i, j] += over[i, j - 1]
    if (over[i, j] > top) top = over[i, j]
  }
}
function draw_densities(   i, j, b) {
  densities()
  for (b = 0; b < count; b++) holds[x[b], y[b]] = title[b]
  for (i = 1; i <= nx; i++) for (j = 1; j <= ny; j++)
    printf "<rect x=\"%d\" y=\"%d\" width=\"%d\" height=\"%d\" fill=\"%s\"><title>%d,%d: %d nets%s</title></rect>\n", i * cell, h - (j + 1) * cell, cell, cell, shade(top ? over[i, j] / top : 0), i, j, over[i, j], (i, j) in holds ? ": " text(holds[i, j]) : ""
  for (i = 0; i <= 4; i++) {
    printf "<rect x=\"%d\" y=\"%d\" width=\"30\" height=\"12\" fill=\"%s\" stroke=\"black\"/>\n", cell + 80 * i, h + 6, shade(i / 4)
    printf "<text x=\"%d\" y=\"%d\" font-size=\"12\" font-family=\"sans-serif\">%d%s</text>\n", cell + 80 * i + 34, h + 16, top * i / 4, i == 4 ? " nets over a site" : ""
  }
}
END {
  dense = nets > 0 && count > LARGE
  cell = dense ? int(1600 / ((nx > ny ? nx : ny) + 2)) : 40
  if (cell > 40) cell = 40; if (cell < 3) cell = 3
  if (dense) edge = cell > 12 ? 1 : 0
  inside = cell - 2 * edge
  w = (nx + 2) * cell; h = (ny + 2) * cell
  printf "<svg xmlns=\"http://www.w3.org/2000/svg\" width=\"%d\" height=\"%d\">\n", w, h + (dense ? 24 : 0)
  printf "<rect width=\"%d\" height=\"%d\" fill=\"white\"/>\n", w, h + (dense ? 24 : 0)
  if (dense) draw_densities()
  else for (i = 1; i <= nx; i++) for (j = 1; j <= ny; j++)
    printf "<rect x=\"%d\" y=\"%d\" width=\"%d\" height=\"%d\" fill=\"none\" stroke=\"#bbb\"/>\n", i * cell + edge, h - (j + 1) * cell + edge, inside, inside
  for (long = 1; long * long <= most; long++) { }
  rows = int(most / long) + 1; room = inside / long; pad = room * 0.7
  if (pad > 12) pad = 12
  for (i = 0; i < count; i++) {
    left = x[i] * cell + edge; top = h - (y[i] + 1) * cell + edge
    if (x[i] >= 1 && x[i] <= nx && y[i] >= 1 && y[i] <= ny) { if (!dense) box(left, top, inside, "#9cc4e4", title[i]) }
    else box(left + (place[i] % long) * room + (room - pad) / 2, top + (inside - rows * room) / 2 + int(place[i] / long) * room + (room - pad) / 2, pad, "#e8b04a", title[i])
  }
  if (!dense) for (n = 0; n < nets; n++) if (!(net[n] in global)) net_box(n)
  for (n = 0; n < nets; n++) if (net[n] in marked) net_mark(n)
  for (i = 1; i <= marks; i++) if (!(mark[i] in pins)) print "placement.awk: no net " mark[i] > "/dev/stderr"
  print "</svg>"
}
