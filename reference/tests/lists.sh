# The named lists of test.sh: a name, the command bytes, and the lines that document 01 and the
# readings give for them.

list "the listing of document 01" \
    "01 00 01 03 01 02 07 02 00 00 03 00 03 05 02 07 00 00 00 00 00 00 00 1c 03 1b 01" <<END
1 0
2 0
3 0
4 0
5 0
6 0 -1028 1 1 0 1
7 0 1 1 0 0 ---------------
END

# -- M2 to M12 ---------------------------------------------------------------------------------

list "M2: of two entries for one condition the later stays" \
    "0f0000 02 0501 0500 0000 0000  1b00" <<END
1 0
2 0 0 0 0 0 -----0---------
END

list "M3: killed before its start a thread is Dying, and the start makes it Running" \
    "030000 080000 0a00 1d00 0900 1d00" <<END
1 0
2 0
3 0
4 0 4 0 0
5 0
6 0 1 0 0
END

list "M4: done and killed together give 0, killed comes before deadline and cancelled" \
    "030000 080000 0900 19000302 0a00 1a0001 1d00  080001 0901 19010300 0a01 1a0106 1d01" <<END
1 0
2 0
3 0
4 0
5 0
6 0
7 0 4 0 0
8 0
9 0
10 0
11 0
12 -60
13 0 4 0 0
END

list "M5: a token on a process that has a newer thread stays, and so do the counts" \
    "030000 080000 0d000100 080001 0e00 1d00 1d01 0e00" <<END
1 0
2 0
3 0
4 0
5 106
6 0 2 0 1
7 0 0 0 0
8 106
END

list "M6: an Exited process keeps its first code" \
    "030000 05000700000000000000 05000900000000000000 0600 1c00" <<END
1 0
2 0
3 0
4 0
5 0 7 1 1 0 1
END

list "M7: the last listed thread finishes in a process never exited: code 0" \
    "030000 080000 040000 1c00 0c00 1c00" <<END
1 0
2 0
3 0
4 0 0 1 0 0 0
5 0
6 0 0 1 1 0 1
END

answers "M8: bound twice is -27 even with a wrong job; a job that is no ancestor is -10" \
    "010001 010002 030100  07000200 07000101 07000200 07000101" <<END
0 0 0  -10 0 -27 -27
END

list "M9: the kill of an empty job terminates it at once" \
    "010001 120401 0201 1b01 120401 010102" <<END
1 0
2 0
3 0
4 0 1 1 0 0 ---------------
5 -20
6 -20
END

list "M10: Absolute with 5 set by the parent is -26 and 4 stays set; Relative skips 5" \
    "010001 0f0100 01 0500 0000 0000 0000 010102 0f0200 02 0401 0501 0000 0000 1b02
     010103 0f0301 02 0401 0501 0000 0000 1b03" <<END
1 0
2 0
3 0
4 -26
5 0 0 0 0 0 ----10---------
6 0
7 0
8 0 0 0 0 0 ----10---------
END

list "M11: ThreadExiting lies at level 1 without becoming the current one" \
    "030005 080500 0900 14000881 120105 14000881 1d00 1700 01000000 1700 02000000
     1600 01000000 1800 1500 14000881 0a00 1500 14000881" <<END
1 0
2 0
3 0
4 -61 0
5 0
6 1 5
7 0 1 0 0
8 -20
9 -10
10 0
11 0
12 0 0
13 1 5
14 0
15 105
16 -60 0
END

list "M12: set_strategy 2 is -10 before the level is looked at; levels 2, 3 and 4 give -20" \
    "010001 030102 080203 0903 120102 120203 120302 120401 14030800
     1703 02000000 1703 00000000 1503 1703 02000000 1703 00000000 1803 1503 1703 00000000 1803
     1503 1703 00000000 1503 1c02" <<END
1 0
2 0
3 0
4 0
5 0
6 0
7 0
8 0
9 1 2
10 -10
11 0
12 2 3
13 -10
14 -20
15 -30
16 3 2
17 -20
18 0
19 4 1
20 -20
21 -61 0
22 0 -1028 1 1 1 0
END

# -- Reading the input -------------------------------------------------------------------------

answers "an empty input writes nothing" "" </dev/null
answers "an unknown command stops" "0200 20 0200" <<END
0 stop
END
answers "a cut operand stops" "0500 01020304050607" <<END
stop
END
answers "a count above 4 stops before 104 and 101" "0fff09 05 ffff ffff ffff ffff" <<END
stop
END
answers "pairs past the count are ignored, fields come before the name" \
    "0f0000 01 0401 ffff ffff ffff  0fff00 01 0f01 0000 0000 0000
     0fff00 00 0000 0000 0000 0000" <<END
0 104 101
END
list "V is signed, H and W are not" \
    "030000 0500 0000000000000080 1c00 030001 080100 0900 120101 14000881
     1600 ffffffff 10 00 ffffffffffffffff 00" <<END
1 0
2 0
3 0 -9223372036854775808 1 1 0 1
4 0
5 0
6 0
7 0
8 1 1
9 -10
10 -20
END

# -- The order of refusals ---------------------------------------------------------------------

answers "fields come before names" \
    "07ffff02 0dff03ff 10ff 0000000000000000 03 11ff0f 1200ff 1206ff 1306ff 14ff0900
     14ff0400 19ff0301 19ff030a 1aff08 1e03ff 1f03ff" <<END
104 104 104 104 104 104 104 104 104 104 104 104 104 104
END
answers "past the table, then never made, then already used" \
    "010520 010500 010000 030040 030540 030500 030000 030000 080080 080100 080000 080000
     0a80 0a7f 0d400100 0d000140 0d000101 0d000100 0d000100 0e40 0e01 0e00 0e00 0d000100" <<END
101 103 102 101 101 103 0 102 101 103 0 102 101 103 101 101 103 0 102 101 103 0 103 102
END
answers "jobs can't be suspended: 106 after the names" \
    "0d000020 0d000001 030000 0d010100 0d010000 0d000000 1e0001 1e0000 1f0000" <<END
101 103 0 0 102 106 103 106 106
END
answers "a start: 105, then -30, then -20" \
    "030000 030001 080000 080001 040100 040000 040100 040000 040001 0c00 0900 040100" <<END
0 0 0 0 -30 0 105 105 -20 0 105 105
END
answers "out of turn" \
    "030000 080000 0b00 0c00 14000800 19000300 1500 1600 02000000 1700 02000000 1800 1a0000
     0900 0900 130100 120100 130100 130100 120100 120100" <<END
0 0 105 105 105 105 105 105 105 105 105 0 105 105 0 0 105 0 -27
END
answers "a making refused with -20 leaves the name" \
    "010001 0201 010102 030100 010002 030000 080000 05000000000000000000 080001" <<END
0 0 -20 -20 0 0 0 0 -20
END
answers "no count is moved by 106, and a process without threads takes every suspend and resume" \
    "030000 1e0100 1f0100 0d000100 080000 1e0200 080001 1f0100 0e00 1f0200 1f0200" <<END
0 0 0 0 0 0 0 106 106 0 106
END
answers "both policy setters: -20 before -10 and -26; a killed empty job takes them" \
    "030000 10 00 ffffffffffffffff 00 0f0000 00 0000 0000 0000 0000 0200 10 00 ffffffffffffffff 00
     10 00 0000000000000000 02 0f0000 01 0c04 0000 0000 0000" <<END
0 -20 -20 0 -10 0 0
END

# -- Waits and exceptions ----------------------------------------------------------------------

list "a plain wait: pending, deadline before cancelled, and Running again" \
    "030000 080000 0900 19000305 1d00 1a0000 1a0006 1d00 19000300 1a0004 0b00 19000300 1d00" <<END
1 0
2 0
3 0
4 0
5 0 1283 0 0
6 -22
7 -21
8 0 1 0 0
9 0
10 -23
11 0
12 -60
13 0 4 0 0
END
list "ThreadStarting goes to 1 only, ProcessStarting to 5 and is over at its first closing" \
    "010001 030100 080000 0900 120200 14000880 120500 120501 14000883
     1700 01000000 1500 130501 14000883 1b01" <<END
1 0
2 0
3 0
4 0
5 0
6 -61 0
7 0
8 0
9 5 1
10 0
11 0 0
12 0
13 5 0
14 0 0 0 0 0 ---------------
END
list "second chance is read after level 3" \
    "030000 080000 0900 120100 120300 14000800 1700 01000000 1500 1500
     1600 01000000 1500 1d00" <<END
1 0
2 0
3 0
4 0
5 0
6 1 0
7 0
8 3 0
9 1 0
10 0
11 0 0
12 0 1 0 0
END
list "a kill ends the wait in the same call; other types raised while Dying deliver nothing" \
    "030000 080000 0900 120200 14000800 1d00 0a00 1d00 1500 14000800" <<END
1 0
2 0
3 0
4 0
5 2 0
6 0 259 2 0
7 0
8 0 4 0 0
9 105
10 -60 0
END
list "the debugger reads what a killed thread sent; the next exception is a message of its own" \
    "030000 080000 080001 0900 0901 120100 0a00 14000881 14010800 1501 1c00" <<END
1 0
2 0
3 0
4 0
5 0
6 0
7 0
8 -60 0
9 1 0
10 -61 0
11 0 -1028 1 1 1 0
END
list "hanging up ends no delivered exception; a hung-up level that is tried becomes unbound" \
    "030000 080000 0900 120100 14000881 130100 1d00 1500 14000881 130100 120100 120100" <<END
1 0
2 0
3 0
4 0
5 1 0
6 0
7 0 1 0 0
8 0 0
9 -61 0
10 105
11 0
12 -27
END
list "an unhandled exception kills the process's other threads, and their waits end with it" \
    "030000 080000 080001 0900 0901 120201 14010800 14000800 1501 1d00 1d01 1c00" <<END
1 0
2 0
3 0
4 0
5 0
6 0
7 2 1
8 -61 0
9 105
10 0 4 0 0
11 0 4 0 0
12 0 -1028 1 1 0 0
END

# -- Counts ------------------------------------------------------------------------------------

perl -e 'print "0 " x 65537, "107 107 0 0 107"' |
    answers "a count of 65,534 is raised, one of 65,535 is not" \
        "030000 080000 $(perl -e 'print "1e0200" x 65535') 1e0200 0d000100 1f0200 1e0100 0d000200"

# -- The longest way ---------------------------------------------------------------------------

chain=$(perl -e 'printf "01%02x%02x", $_ - 1, $_ for 1 .. 31')
levels=$(perl -e 'print "120100120200120300"; printf "1204%02x", $_ for 0 .. 31')
perl -e '
    my @lines = (("0") x 69, "1 0", "0", "2 0", "3 0", "1 0", (map { "4 $_" } reverse 0 .. 31));
    print $_ + 1, " $lines[$_]\n" for 0 .. $#lines;
    print "107 -61 0\n108 105\n"' |
    list "an exception is over after 36 closings" \
        "$chain 031f00 080000 0900 $levels 14000800 1700 01000000 $(perl -e 'print "1500" x 37')"
