"""Rows that books/try tries for number skeletons: as ICU4C 72 has them, but for docs/skeletons.md, "Where ICU differs"."""

# A skeleton, and its normal text, or its fault and the place.
NORMAL = [
    tuple(row.split(" | "))
    for row in """\
notation-simple sign-auto % group-auto | percent
 percent  .00  | percent .00
permille +! | permille sign-always
currency/usd K | compact-short currency/USD
+! 000 ,_ rounding-mode-up .00+ % | percent .00* rounding-mode-up group-off integer-width/*000 sign-always
unit-width-iso-code () currency/CHF precision-currency-cash | currency/CHF precision-currency-cash unit-width-iso-code sign-accounting
. ,? | precision-integer group-min2
compact-long group-auto | compact-long group-auto
compact-long ,? | compact-long
percent foo | Unknown at 8
.0x | Unknown at 0
currency | Unknown at 0
percent currency/EUR | Twice at 8
base-unit percent | Twice at 10
percent permille | Twice at 8
.00 .0 | Twice at 4
K currency/EURO | Code at 2
.00 unit-width-iso-code percent | Pair at 4
precision-currency-cash/w | Pair at 0
percent latin | System at 8
numbering-system/thai | System at 0
KK .00 | compact-long .00
currency/EUR rounding-mode-up K | Later at 13
compact-short currency/EUR .00 | Later at 27
K precision-currency-standard | Later at 2
currency/EUR rounding-mode-up | Later at 13
.##/@@@+ | .##/@@@*
.00/@@@* | .00/@@@*
percent precision-integer/@@+/w | percent ./@@*/w
.0#/@##/w | .0#/@##/w
.0/@ | .0/@
.00/@@* .0 | Twice at 8
.00/@@*r | Unknown at 0
.00/@@# | Unknown at 0
@@ rounding-mode-floor K | compact-short @@ rounding-mode-floor
.0#/@@x | Unknown at 0
@@#/w ,! | @@#/w group-on-aligned
precision-integer/@@#s/w | ./@@#s/w
unit/kilometer | Later at 0
E+!00 | scientific/*ee/sign-always
E0 .00 | scientific .00
000 EE0 | engineering integer-width/*000
engineering/+eee ,? | engineering/*eee group-min2
scientific/sign-always/*e/sign-auto | scientific
scientific/+!/*eee/*ee group-auto | scientific/*ee/sign-always
E+0 | Unknown at 0
scientific/* | Unknown at 0
scientific/*ee/ | Unknown at 0
. E0/sign-always | Unknown at 2
engineering/group-off | Unknown at 0
K E0 | Twice at 2
. EE+?00 | Unsupported at 2
scientific/sign-never | Unsupported at 0
percent scientific | Later at 8
E0 currency/EUR | Later at 0
%x100 | Later at 0
integer-width/##00 | Unsupported at 0
decimal-auto precision-increment/00.50/w | precision-increment/0.50/w
precision-increment/25. | precision-increment/25
% precision-increment/0.3 | Unsupported at 2
precision-increment/0 | Unknown at 0
decimal-auto decimal-auto | Twice at 13
usage/road | Unsupported at 0""".split("\n")
]
# A skeleton, a number, the digits of the currency, and the line that asks for it by other words.
LINES = [
    tuple(row.split(" | "))
    for row in """\
base-unit | 007.500 | - | plain auto auto - 7.5
base-unit | -1.23456789 | - | plain auto auto - -1.234568
. | -0.001 | - | plain auto auto - -0
.00## +! | 1.5 | - | plain auto always - 1.50
.00/w 000 | 3 | - | plain auto auto - 003
.0#/w | 3 | - | plain auto auto - 3
@@# ,! | 1234.5 | - | plain on-aligned auto - 1230
@@@ | 9.996 | - | plain auto auto - 10.0
@@+ | 0 | - | plain auto auto - 0.0
.0#/@@r | 0.00123 | - | plain auto auto - 0.0012
.0#/@@s | 0.00123 | - | plain auto auto - 0.0
.0#/@@s/w | 0.00123 | - | plain auto auto - 0
.00/@@@r | 0.1 | - | plain auto auto - 0.100
.00/@@@* | 0.1 | - | plain auto auto - 0.10
.00/@@@* | 0.012345 | - | plain auto auto - 0.0123
.00/@@@* | 1234 | - | plain auto auto - 1234.00
.00/@@@*/w | 1234 | - | plain auto auto - 1234
.00/@## | 1234 | - | plain auto auto - 1230.00
.00/@## | 1.23456 | - | plain auto auto - 1.23
.##/@@@+ | 12.3456 | - | plain auto auto - 12.35
.##/@## | 12.3456 | - | plain auto auto - 12.3
.00* ,_ | 1.2345 | - | plain never auto - 1.2345
.0 rounding-mode-half-ceiling | -0.25 | - | plain auto auto - -0.2
.0 rounding-mode-half-floor | -0.25 | - | plain auto auto - -0.3
precision-increment/0.05 | 1.23 | - | plain auto auto - 1.25
precision-increment/0.50/w | 2.8 | - | plain auto auto - 3
precision-increment/250 | 1400 | - | plain auto auto - 1500
.+ +- | 1.23456789 | - | plain auto negative - 1.23456789
% ,? | 1234.5 | - | percent min2 auto - 1234.5
permille . | 1234.5 | - | permille auto auto - 1234
KK | 1234567.00 | - | long min2 auto - 1234567
K group-auto +_ | 1234 | - | short auto never - 1234
K .00 | 1234 | - | None
scientific | 1234 | - | None
KK rounding-mode-up | 1234 | - | None
currency/JPY | 2.5 | 0 1 0 1 | currency-JPY auto auto 0,half-even,1 2
currency/CHF precision-currency-cash | 5.03 | 2 1 2 5 | currency-CHF auto auto -2,half-even,1 5.05
currency/USD ()! precision-currency-standard/w | 5 | 2 1 2 1 | accounting-USD auto always 0,half-even,1 5
currency/USD unit-width-iso-code .0# | 5 | 2 1 2 1 | code-USD auto auto -1,half-even,1 5.0
currency/USD unit-width-iso-code () | 5 | 2 1 2 1 | None
K currency/EUR | 5 | 2 1 2 1 | None""".split("\n")
]
# A skeleton, a number, and what is shown of it before it is written in a locale.
SHOWN = [
    tuple(row.split(" | "))
    for row in """\
scientific | 1234567.8910 | 1.234568E6
E0 | 0 | 0E0
E0 | -0.00 | -0E0
E0 | 1.00 | 1E0
E0 .00 | 1.5 | 1.50E0
E0 .00/w | 100 | 1E2
E0 @@ | 9.99 | 1.0E1
E0 @@@ | 999999 | 1.00E6
EE0 . | 999999 | 1E6
EE0 @@ | 9.99 | 10E0
EE0 | 0.00012 | 120E-6
EE0 .0 | 12345678 | 12.3E6
E+!00 | 1200000 | 1.2E+06
E+!0 | 0 | 0E+0
E00 | -0.00012 | -1.2E-04
scientific/*eee | 1234567 | 1.234567E006
E0 000 | 1234567.891 | 001.234568E6
E0 rounding-mode-up . | 1.1 | 2E0
E0 . sign-except-zero | 0.00001 | 1E-5
E0 precision-unlimited | 1.23456789012 | 1.23456789012E0
E0 precision-increment/5 rounding-mode-up | 8 | 5E1
E0 precision-increment/50 | 123 | 0E2""".split("\n")
]
