#!/bin/sh
# Compiles the reference into a temporary folder, checks it on the document's own example, on the
# whole reference table and on verdicts worked out by hand, and prints "ok".
set -eu
here=$(cd "$(dirname "$0")" && pwd)
work=$(mktemp -d)
trap 'rm -rf "$work"' EXIT
rustc --edition 2021 -D warnings -O -o "$work/reference" "$here/main.rs"
reference=$work/reference

fail() {
    echo "selftest: $1" >&2
    exit 1
}

# The example of the checking program, to the byte: the last line of the input has no LF.
printf '%s\n%s\n%s\n%s' \
    060E2B34020501010E010303210000000401801105 \
    060E2B34020501010E0103030600000003010181 \
    060E2B34020501010E010303210000000402910081 \
    060E2B | "$reference" report > "$work/got"
cat > "$work/expected" <<'END'
1 S OK 4 0
2 M CUT 130 0
3 S BAD 11 3
4 - OPEN 0 0
END
cmp "$work/expected" "$work/got" || fail "the example's report differs"

# An empty input gives an empty report.
"$reference" report < /dev/null > "$work/got"
test ! -s "$work/got" || fail "an empty input is reported on"

# Rows with their verdicts: "kind bytes verdict", a dash for no bytes; a star behind the kind states
# that deviations of Mode 1 are mapped.
check_rows() {
    sed 's/^\([SM][ *]\)- /\1 /' "$1" > "$work/expected"
    sed 's/^\([SM][ *][0-9A-F]*\) .*/\1/' "$work/expected" > "$work/rows"
    "$reference" rows < "$work/rows" > "$work/got"
    diff "$work/expected" "$work/got" || fail "$2"
}

# The reference table, the rows that end before control byte 1 and 02 11 worked out afresh.
cat > "$work/table" <<'END'
S - unfinished 3
S 01 unfinished 3
S 02 unfinished 2
S 03 unfinished 3
S 10 unfinished 17
S 11 unfinished 19
S 40 unfinished 66
S 41 refused 2 at 0
S*- unfinished 3
S*01 unfinished 2
S*02 unfinished 2
S*03 unfinished 3
S*10 unfinished 17
S*11 unfinished 18
S*40 unfinished 65
S*41 refused 2 at 0
S 01801105 complete 4
S 02910040 complete 4
S 0211 refused 6 at 1
S*0211 unfinished 3
S 0283 refused 6 at 1
S 02A0 refused 7 at 1
S 0191 refused 8 at 1
S 028000 refused 9 at 2
S 03B10000 refused 9 at 3
S 03B100A1 refused 10 at 3
S 03B100 unfinished 2
S 03B111 unfinished 4
S 02920080 unfinished 1
S 0292008001 refused 11 at 4
M 01010001 complete 4
M 01828000 unfinished 2
M 01828001 refused 2 at 3
M 018281 refused 2 at 2
M 010281 unfinished 258
S 03B204A03F800000400000004080000060002000 complete 20
END
check_rows "$work/table" "the reference table differs"
"$reference" make-rows > "$work/made"
while IFS= read -r row; do
    grep -qxF "$row" "$work/made" || fail "make-rows lacks $row"
done < "$work/rows"

# Verdicts worked out by hand from the sentences of the document.
cat > "$work/hand" <<'END'
S 00 refused 1 at 0
S 7F refused 2 at 0
S 80 refused 3 at 0
S 81 refused 2 at 0
S FF refused 2 at 0
S 01A0 refused 7 at 1
S 01B0 refused 16 at 1
S 01A1 refused 6 at 1
S 01B1 refused 8 at 1
S 01FF refused 5 at 1
S 02C0 refused 5 at 1
S 0299 refused 6 at 1
S 0181 refused 6 at 1
S 028080 refused 4 at 2
S 0280E0 refused 4 at 2
S 028060 refused 5 at 2
S 028021 refused 5 at 2
S 028001 refused 6 at 2
S 028019 refused 6 at 2
S 029100 unfinished 1
S 0190 refused 16 at 1
S 0290 refused 16 at 1
S*0290 refused 16 at 1
S 0390 refused 16 at 1
S 4090 refused 16 at 1
S 02B0 refused 16 at 1
S 02D0 refused 5 at 1
S 02F0 refused 5 at 1
S 0180 unfinished 2
S 0280 unfinished 3
S 0291 unfinished 2
S 01901105 refused 16 at 1
S 029010 refused 16 at 1
S 028010 refused 16 at 2
S*028010 refused 16 at 2
S 018010 refused 16 at 2
S 029110 refused 16 at 2
S 02911040 refused 16 at 2
S 03B11080 refused 16 at 2
S 028090 refused 4 at 2
S 028030 refused 5 at 2
S 028070 refused 5 at 2
S 02801F refused 6 at 2
S 02811F refused 6 at 1
S 03B8 unfinished 5
S 03B800 unfinished 9
S 03B811 unfinished 4
S 03B10001 refused 10 at 3
S 03B11101 refused 10 at 3
S 03B11100 unfinished 3
S 03B11100000000 complete 7
S 03B100E0808080FF complete 7
S 06B10000 unfinished 2
S 06B1000000 refused 9 at 4
S 06B1000001 refused 10 at 4
S 0180027BFF complete 5
S 0180027C refused 11 at 3
S 01800280 refused 11 at 3
S 0180047F7FFFFF complete 7
S 0180047F80 refused 11 at 4
S 0180087FF0 refused 11 at 4
S 0282008000 complete 5
S 028200BC00 complete 5
S 028200BC01 refused 11 at 4
S 028200BD refused 11 at 3
S 0288003FF0000000000001 refused 11 at 10
S 0298008000000000000000 complete 11
S 0298008000000000000001 refused 11 at 10
S 0298008001 refused 11 at 4
S 0180188000000000000000 complete 11
S 12 unfinished 20
S*12 unfinished 19
S 034B unfinished 13
S*034B unfinished 13
S 034BA0 unfinished 18
S 034BA03F8000004000000040800000600000200000 complete 21
S*034BA03F8000004000000040800000600000200000 complete 21
S 024B8080 refused 11 at 3
S*024B8080000000 unfinished 7
S*024B8080000001 refused 11 at 6
S 0140 unfinished 4
S 0138 refused 6 at 1
S*0138 refused 7 at 1
S 0139 refused 6 at 1
S*0139 refused 8 at 1
S 0108 refused 7 at 1
S 0109 refused 8 at 1
S 0101 refused 8 at 1
S 0100 refused 9 at 1
S 0200 refused 9 at 1
S*0200 refused 9 at 1
S 0230 refused 6 at 1
S*0230 unfinished 6
S 0270 refused 6 at 1
S*0277 unfinished 21
S 0201 unfinished 1
S 0309 unfinished 2
S 030900 refused 9 at 2
S 0309A1 refused 10 at 2
S 030901 refused 10 at 2
S 032901 refused 10 at 2
S 032900 unfinished 6
S 03290000000000007BFF complete 9
S 06090000 refused 9 at 3
S 06090001 refused 10 at 3
S 060900 unfinished 2
S 01207BFF complete 4
S 01207C refused 11 at 2
S*01208000 complete 4
S*01208001 refused 11 at 3
S 01407F7FFFFF complete 6
S 01407F80 refused 11 at 3
S*011080 complete 3
S*011081 refused 11 at 2
S 020180 complete 3
S 020181 refused 11 at 2
S 02028001 refused 11 at 3
S 02078000000000 unfinished 2
S 021000 refused 6 at 1
S*02100000 complete 4
S*028080 refused 4 at 2
S*0280 unfinished 3
S*0120 unfinished 2
S 0120 unfinished 2
S*0210 unfinished 2
S*0201 unfinished 1
S*01801105 complete 4
S*0180027C refused 11 at 3
M - unfinished 4
M 00 refused 1 at 0
M 08 unfinished 10
M 09 refused 2 at 0
M 80 refused 3 at 0
M 81 refused 2 at 0
M 0100 refused 1 at 1
M 0180 refused 3 at 1
M 017F unfinished 2
M 0181 unfinished 3
M 0182 unfinished 3
M 0183 unfinished 3
M 018380 refused 2 at 2
M 01828000 unfinished 2
M 0282800002 refused 2 at 4
M 0282800001 unfinished 2
M 02820081 unfinished 3
M 02820082 refused 2 at 3
M 01010080 refused 3 at 3
M 01010000 refused 1 at 3
M 01010002 refused 12 at 3
M 0101007F refused 12 at 3
M 01010081 refused 12 at 3
M 010180 refused 3 at 2
M 010100 unfinished 1
M 01018280 unfinished 32770
M 01018281 refused 2 at 3
M 010183 unfinished 386
M 0182800001 unfinished 32769
M 0182800002 refused 2 at 4
M 0103020101020304050607 complete 10
M 03648148822C refused 2 at 4
M 02646404 refused 2 at 3
M 0264640001 complete 5
END
check_rows "$work/hand" "a verdict worked out by hand differs"

# Offsets worked out by hand from Appendix A of ST 1303: one, two, three and eight dimensions.
cat > "$work/expected" <<'END'
A 01050301 15 4 array 1 5 0 0 0 0 0 0 0 3 4 offset 12
A 0202030401 24 1 2 array 2 2 3 0 0 0 0 0 0 4 5 offset 20
A 0264640301 30000 10 0 array 2 100 100 0 0 0 0 0 0 3 5 offset 3000
A 030304050401 240 1 2 3 array 3 3 4 5 0 0 0 0 0 4 6 offset 132
A 0801020304050601020201 2880 0 1 2 3 4 5 0 1 array 8 1 2 3 4 5 6 1 2 2 11 offset 2878
A 0202030401 24 2 0 array 2 2 3 0 0 0 0 0 0 4 5 refused 15 at 0
A 0202030401 24 1 array 2 2 3 0 0 0 0 0 0 4 5 refused 15 at 0
A 03070605000100 0 6 5 4 array 3 7 6 5 0 0 0 0 0 0 6 offset 0
A 0202030401 23 2 0 unfinished 1
END
sed 's/ \(array\|unfinished\) .*//' "$work/expected" > "$work/rows"
"$reference" rows < "$work/rows" > "$work/got"
diff "$work/expected" "$work/got" || fail "an offset worked out by hand differs"

# Unpacking, expanding, scaling and writing again, worked out by hand: the byte of ST 1010's Figure 7,
# a coefficient that is not sent, and none at all.
cat > "$work/expected" <<'END'
U 034BA03F8000004000000040800000600000200000 3 3 3 complete 21 deviations 1065353216 1073741824 1082130432 coefficients 6291456 4194304 2097152 marks 1 0 1 kept
E*034BA03F8000004000000040800000600000200000 9 9 complete 21 words 1065353216 6291456 4194304 6291456 1073741824 2097152 4194304 2097152 1082130432 marks 1 1 0 1 1 1 0 1 1 kept
C 034BA03F8000004000000040800000600000200000 complete 21 scaled 2097152 0 -2097152 of 4194304
U*02100506 2 1 1 complete 4 deviations 5 6 coefficients 0 marks 0 kept
U 02100506 2 1 1 refused 6 at 1 kept
E 0309405A 9 9 complete 4 words 0 64 90 64 0 64 90 64 0 marks 0 0 1 0 0 0 1 0 0 kept
U 01801105 1 0 0 complete 4 deviations 5 coefficients marks kept
U 01901105 1 0 0 refused 16 at 1 kept
U 02911040 0 0 0 refused 16 at 2 kept
E 02911040 4 4 refused 16 at 2 kept
E*01901105 0 0 refused 16 at 1 kept
END
sed 's/ \(complete\|refused\) .*//' "$work/expected" > "$work/rows"
"$reference" rows < "$work/rows" > "$work/got"
diff "$work/expected" "$work/got" || fail "values worked out by hand differ"
printf '%s\n' 'R 03B204A03F800000400000004080000060002000' 'R*0309405A' 'R 0309405A' 'R 0309405B00' 'R*02100506' 'R 02100506' \
    'R 01801105' 'R 01901105' 'R 02910040' 'R 02911040' |
    "$reference" rows > "$work/got"
printf '%s\n' 'R 20 same' 'R* 4 same' 'R 4 same' 'R 5 differs' 'R* 4 same' 'R 4 differs' \
    'R 4 same' 'R 4 differs' 'R 4 same' 'R 4 differs' | diff - "$work/got" ||
    fail "what is written again differs"

# Writing, worked out by hand: the example of the document, its room, its marks; the same in Mode 1
# with the byte of Figure 7, and the order of its refusals; a format flag with nothing behind it, of one
# variable and of two; sizes in turn.
cat > "$work/expected" <<'END'
W 0301010200040214030303000000003F80000000000000400000000000000040800000000000000000600000000000000040000000000000002000010001 complete 20 3 178 4 160 63 128 0 0 64 0 0 0 64 128 0 0 96 0 32 0 kept
W*0301010200040214030303000000003F80000000000000400000000000000040800000000000000000600000000000000040000000000000002000010001 complete 20 3 178 4 160 63 128 0 0 64 0 0 0 64 128 0 0 96 0 32 0 kept
W 0301010200040213030303000000003F80000000000000400000000000000040800000000000000000600000000000000040000000000000002000010001 refused 13 at 0 kept
W 0301010200040214030303000000003F80000000000000400000000000000040800000000000000000600000000000000040000000000000002000020001 refused 14 at 0 kept
W 0300010200040214030303000000003F80000000000000400000000000000040800000000000000000600000000000000040000000000000002000010001 refused 14 at 0 kept
W 4101010200040214030303000000003F80000000000000400000000000000040800000000000000000600000000000000040000000000000002000010001 refused 2 at 0 kept
W 0301010300040115030303000000003F80000000000000400000000000000040800000000000000060000000000000004000000000000000200000010001 complete 21 3 75 160 63 128 0 0 64 0 0 0 64 128 0 0 96 0 0 32 0 0 kept
W*0301010301040115030303000000003F80000000000000400000000000000040800000000000000060000000000000004000000000000000200000010001 complete 21 3 75 160 63 128 0 0 64 0 0 0 64 128 0 0 96 0 0 32 0 0 kept
W 0301010300040114030303000000003F80000000000000400000000000000040800000000000000060000000000000004000000000000000200000010001 refused 13 at 0 kept
W 0301010301040115030303000000003F80000000000000400000000000000040800000000000000060000000000000004000000000000000200000010001 refused 14 at 0 kept
W*0301010300040115030303000000003F80000000000000400000000000000040800000000000000060000000000000004000000000000000200000010001 refused 14 at 0 kept
W 0301000300040115030303000000003F80000000000000400000000000000040800000000000000060000000000000004000000000000000200000010001 refused 14 at 0 kept
W 0301010300030115030303000000003F80000000000000400000000000000040800000000000000060000000000000004000000000000000200000010001 refused 6 at 0 kept
W 0301010301030115030303000000003F80000000000000400000000000000040800000000000000060000000000000004000000000000000200000010001 refused 6 at 0 kept
W 0301010800040115030303000000003F80000000000000400000000000000040800000000000000060000000000000004000000000000000200000010001 refused 6 at 0 kept
W*0301010301080115030303000000003F80000000000000400000000000000040800000000000000060000000000000004000000000000000200000010001 refused 6 at 0 kept
W 0301000001040115030303000000003F80000000000000400000000000000040800000000000000060000000000000004000000000000000200000010001 refused 7 at 0 kept
W 0101000301040115030303000000003F80000000000000400000000000000040800000000000000060000000000000004000000000000000200000010001 refused 8 at 0 kept
W 0100000301040115030303000000003F80000000000000400000000000000040800000000000000060000000000000004000000000000000200000010001 refused 8 at 0 kept
W 0300000001000115030303000000003F80000000000000400000000000000040800000000000000060000000000000004000000000000000200000010001 refused 9 at 0 kept
W 0301000300000115030303000000003F80000000000000400000000000000040800000000000000060000000000000004000000000000000200000000000 refused 14 at 0 kept
W 0301010300000115030303000000003F80000000000000400000000000000040800000000000000060000000000000004000000000000000200000000000 refused 9 at 0 kept
W 0001010300040315030303000000003F80000000000000400000000000000040800000000000000060000000000000004000000000000000200000010001 refused 14 at 0 kept
W 0001010300040015030303000000003F80000000000000400000000000000040800000000000000060000000000000004000000000000000200000010001 refused 14 at 0 kept
W 01000000010102040100000000000000000005 complete 4 1 128 17 5 kept
W 01000100010102040100000000000000000005 refused 16 at 0 kept
W*01000100010102040100000000000000000005 refused 16 at 0 kept
W*01000100010101040100000000000000000005 complete 3 1 16 5 kept
W 020001010000020402010100000000000000000000000000000000000000000000004001 complete 4 2 145 0 64 kept
W 020001010100020402010100000000000000000000000000000000000000000000004001 refused 16 at 0 kept
W*020001010100010402010100000000000000000000000000000000000000000000004001 complete 3 2 1 64 kept
W 020001010100010402010100000000000000000000000000000000000000000000004001 refused 14 at 0 kept
W 00000100010102040100000000000000000005 refused 1 at 0 kept
W 41000100010102040100000000000000000005 refused 2 at 0 kept
W 020101000101020902010100000000000000050000000000000006000000000000000000 refused 16 at 0 kept
W 020100000100020902010100000000000000050000000000000006000000000000000000 refused 7 at 0 kept
W 01000101010002090100000000000000000005 refused 8 at 0 kept
W 020001090100020902010100000000000000050000000000000006000000000000000001 refused 6 at 0 kept
W 020001000003020902010100000000000000050000000000000006000000000000000000 refused 16 at 0 kept
W 020001000100020902010100000000000000050000000000000006000000000000000000 refused 16 at 0 kept
W 020000000100020902010100000000000000050000000000000006000000000000000000 refused 16 at 0 kept
W 020001000000020902010100000000000000050000000000000006000000000000000000 refused 16 at 0 kept
W 020000000000020902010100000000000000050000000000000006000000000000000000 refused 9 at 0 kept
W 02000100010102090100000000000000000005 refused 16 at 0 kept
W 020101010100020902010100000000000000050000000000000006000000000000004000 refused 16 at 0 kept
W 020001010100020002010100000000000000050000000000000006000000000000008102 refused 16 at 0 kept
W 020001000101030902010100000000000000050000000000000006000000000000000000 refused 14 at 0 kept
X 03000000000000012C000000000000012C0000000000000000000000000000000100000000000000000000000000000064 refused 2 at 0 kept
X 0200000000000000000000000000009C40000000000000000100000000000000000000000000000064 refused 1 at 0 kept
X 0200000000000000020000000000000003000000000000000100000000000000060000000000000064 complete 11 2 2 3 1 1 7 7 7 7 7 7 kept
X 0200000000000000020000000000000003000000000000000100000000000000050000000000000003 refused 14 at 0 kept
X 020000000000000002000000000000000300000000000000010000000000000006000000000000000A refused 13 at 0 kept
END
sed 's/ \(complete\|refused\) .*//' "$work/expected" > "$work/rows"
"$reference" rows < "$work/rows" > "$work/got"
diff "$work/expected" "$work/got" || fail "what is written differs from what was worked out by hand"

# Scaling, worked out by hand: the greatest word, 0 and one below nought; the example of the document; the
# greatest word of eight bytes; each reason, and the order of two.
cat > "$work/expected" <<'END'
K 000000000000008000000000000000000000000000000023 1 3 complete 3 scaled 64 -64 -29 kept
K 000000000000600000000000000040000000000000002000 2 4 complete 3 scaled 8192 0 -8192 kept
K 8000000000000000 8 1 complete 1 scaled 4611686018427387904 kept
K  5 0 complete 0 scaled kept
K 0000000000000040 0 1 refused 6 at 0 kept
K 0000000000000040 9 1 refused 6 at 0 kept
K 00000000000000400000000000000081 1 2 refused 11 at 0 kept
K 8000000000000001 8 1 refused 11 at 0 kept
K 00000000000000400000000000000040 1 1 refused 13 at 0 kept
K FFFFFFFFFFFFFFFF 9 1 refused 6 at 0 kept
K 0000000000000040 0 0 refused 6 at 0 kept
K 0000000000000081 1 0 refused 11 at 0 kept
END
sed 's/ \(complete\|refused\) .*//' "$work/expected" > "$work/rows"
"$reference" rows < "$work/rows" > "$work/got"
diff "$work/expected" "$work/got" || fail "what is scaled differs from what was worked out by hand"

# Frames, worked out by hand: those of the document's example; the key; the forms of the length, and bytes
# that are not as many; a pack that ends before the value; Mode 1; the longest frame and one byte more.
cat > "$work/expected" <<'END'
P 060E2B34020501010E010303210000000401801105 0 S complete 4
P 060E2B34020501010E0103030600000003010181 0 M unfinished 130
P 060E2B34020501010E010303210000000402910081 0 S refused 11 at 3
P 060E2B 0 - refused 24 at 0
P 060E2B34020501010E010303220000 0 - refused 24 at 0
P 060E2B34020501010E01030322000000 0 - refused 21 at 0
P 060E2B34020501010E01030321000000 0 S refused 24 at 0
P 060E2B34020501010E01030321000000 1 S unfinished 3
P 060E2B34020501010E0103030600000081 0 M refused 24 at 0
P 060E2B34020501010E01030306000000817F 127 M refused 22 at 0
P 060E2B34020501010E01030306000000818001017C01 124 M complete 128
P 060E2B34020501010E01030306000000818001017C01 125 M refused 23 at 0
P 060E2B34020501010E010303060000000501010001 1 M refused 23 at 0
P 060E2B34020501010E010303210000000401207BFF 0 S complete 4
P 060E2B34020501010E010303210000000401207C00 0 S refused 11 at 2
P  32832 - refused 21 at 0
P  32833 - refused 25 at 0
END
sed 's/ [SM-] \(complete\|unfinished\|refused\) .*//' "$work/expected" > "$work/rows"
"$reference" rows < "$work/rows" > "$work/got"
diff "$work/expected" "$work/got" || fail "what is said of a frame differs from what was worked out by hand"

# Lines worked out by hand: after the key, the length and its forms; the characters of a line.
key=060E2B34020501010E0103032100000
zeros() { head -c "$1" /dev/zero | tr '\0' 0; }
{
    echo
    echo "${key}"
    echo "${key}0"
    echo "${key}080"
    echo "${key}081"
    echo "${key}082"
    echo "${key}08200"
    echo "${key}08104"
    echo "${key}0820004"
    echo "${key}083000004"
    echo "${key}0FF"
    echo "${key}000"
    echo "${key}003020140"
    echo "${key}003020181"
    echo "${key}0020211"
    echo "${key}00402014000"
    echo "${key}0020120"
    echo "${key}00401207BFF"
    echo "${key}00401801105FF"
    echo "${key}005018011"
    echo "${key}00501801105FF"
    echo "${key}00401901105"
    echo "${key}00402911040"
    echo "${key}00202B0"
    echo "${key}003028010"
    echo "${key}00401801105" | tr A-F a-f
    printf '%s\r\n' "${key}00401801105"
    echo "060E2B34020501010E01030322000000"
    echo "060E2B34020501010E010303220000"
    zeros 65664; echo
    zeros 65665; echo
    zeros 65665 | tr 0 g; echo
    zeros 70000
} | "$reference" report > "$work/got"
cat > "$work/expected" <<'END'
1 - BAD 24 0
2 - BAD 20 0
3 S BAD 24 0
4 S BAD 22 0
5 S BAD 24 0
6 S BAD 24 0
7 S BAD 24 0
8 S BAD 22 0
9 S BAD 22 0
10 S BAD 22 0
11 S BAD 22 0
12 S CUT 3 0
13 S OK 3 0
14 S BAD 11 2
15 S BAD 6 1
16 S BAD 23 0
17 S CUT 2 0
18 S OK 4 0
19 S BAD 23 0
20 S BAD 23 0
21 S BAD 23 0
22 S BAD 16 1
23 S BAD 16 2
24 S BAD 16 1
25 S BAD 16 2
26 - BAD 20 0
27 - BAD 20 0
28 - BAD 21 0
29 - BAD 24 0
30 - BAD 21 0
31 - BAD 25 0
32 - BAD 25 0
33 - OPEN 0 0
END
diff "$work/expected" "$work/got" || fail "a line worked out by hand differs"

# The made rows: none twice, all of them lawful rows, each at most what the program that runs them takes at once.
test -z "$(sort "$work/made" | uniq -d)" || fail "make-rows repeats a row"
test "$(wc -L < "$work/made")" -lt 131072 || fail "make-rows prints too long a row"
"$reference" rows < "$work/made" > "$work/got"
! grep -q ' differs$' "$work/got" || fail "a made pack is not the same when written again"

# The corpus: equal arguments give equal bytes, and every word and reason is reached.
"$reference" corpus 7 20001 > "$work/corpus"
"$reference" corpus 7 20001 | cmp - "$work/corpus" || fail "the corpus is not the same twice"
"$reference" report < "$work/corpus" | "$reference" tally > "$work/tally"
for word in OK CUT BAD OPEN; do
    grep -q "^$word [0-9]*\$" "$work/tally" || fail "the corpus never gives $word"
done
for reason in 1 2 3 4 5 6 7 8 9 10 11 12 16 20 21 22 23 24 25; do
    grep -q "^BAD $reason [0-9]*\$" "$work/tally" || fail "the corpus never gives BAD $reason"
done
# Good packs of both modes come out of it, and are the same when written again.
"$reference" make-again < "$work/corpus" > "$work/again"
for mode in '[0-7]' '[89A-F]'; do
    grep -q "^R [0-9A-F][0-9A-F]$mode" "$work/again" || fail "the corpus lacks a mode"
done
! "$reference" rows < "$work/again" | grep -v ' same$' || fail "a pack of the corpus is not the same when written again"

# The verdicts against a search among endings.
test "$("$reference" check 1 3000)" = ok || fail "the search disagrees"
echo ok
