# Makes the words of a long run of those of a design, one on each line: a million moves at temperature 0, which a crew of two workers or more
# judges ahead. `workers` is how many are asked for.
# usage: awk -v workers=N -f tests/random/long.awk WORDS

/^--(init-t|exit-t|alpha-t|inner|moves|batch|workers)$/ { getline; next }
/^--(init-t|exit-t|alpha-t|inner|moves|batch|workers)=/ { next }
{ print }
END { print "--init-t\n1\n--exit-t\n2\n--moves\n1000000\n--batch\n64\n--workers\n" workers }
