"""The help of `ceiling`."""

ABOUT = """\
A ceiling that no plan's total can pass, for channel plans of links: press a case,
check and explain its log, score plans, and read and write other programs' files.

commands:
  press      make the log that lowers a case's ceiling
             ceiling press samples/valley.case -o valley.log
  check      judge a log
             ceiling check samples/valley.case samples/valley.log
  explain    say in words what was accepted, or why a file was refused
             ceiling explain samples/valley.case samples/valley.log
  picture    draw a case and its log as a page for the browser
             ceiling picture samples/valley.case samples/valley.log -o valley.html
  show       say why each channel is kept after a log: its family, and the partners in it
             ceiling show samples/valley.case samples/valley.log 0
  score      the totals of plans, and how far the best is below the ceiling
             ceiling score samples/valley.case samples/valley.plan --log samples/valley.log
  from-csv   make a case of two spreadsheets, links and pairs
             ceiling from-csv samples/valley-links.csv samples/valley-pairs.csv -o valley.case
  to-csv     write a case as two spreadsheets
             ceiling to-csv samples/valley.case links.csv pairs.csv
  from-wcsp  make a case of a file of toulbar2
             ceiling to-wcsp samples/valley.case | ceiling from-wcsp - -o again.case
  to-wcsp    write a case for toulbar2
             ceiling to-wcsp samples/valley.case -o valley.wcsp

`ceiling COMMAND --help` says more."""

ENDING = """\
Every judgement is a line of the verified programs `press` and `replay`, unchanged.
A file argument `-` is standard input (one of them at most). Words go to standard error.
An output file is complete or absent.

exit status: 0 accepted, void, settled or converted; 1 refused, or a file that does not fit;
2 a file could not be read or written, a program is missing or did not end by itself,
or the command line is wrong. After a signal: 128 and its number.

The programs are looked for in the folder that CEILING_PROGRAMS names, else beside the
source tree or the installation."""

# Of each command: its arguments, what it does, where things go, and examples.
COMMANDS = {
    "press": (
        ["CASE", "-o LOG"],
        """\
Runs `press` on the case. Its log goes to LOG, or to standard output. `replay` judges it
meanwhile: LOG is put in place only where it is not refused. Its judgement is on standard
error, and below it what that means: `accepted ROUNDS CEILING`, or `void` where the log
shows that no lawful plan exists, one that uses nothing barred. On a terminal a long run
shows the rounds so far and the falling ceiling.""",
        "0 accepted or void, 1 the case was refused (nothing is written; an older LOG stays), 2 otherwise",
        [
            "ceiling press samples/valley.case -o valley.log",
            "ceiling press - < samples/triangle.case > triangle.log",
            "ceiling press samples/triangle-barred.case -o void.log",
        ],
    ),
    "check": (
        ["CASE", "LOG"],
        """\
Prints the judgement of `replay` on the log: `accepted ROUNDS CEILING`; `void` where the
log shows that no lawful plan exists, one that uses nothing barred; or `refused N L` with
the number of the rule and the line, counted from 0 through case and log. The case is
judged alone first: no line of the log can stand in for one of the case.""",
        "0 accepted or void, 1 refused, 2 otherwise",
        ["ceiling check samples/valley.case samples/valley.log", "ceiling press samples/triangle.case | ceiling check samples/triangle.case -"],
    ),
    "explain": (
        ["CASE", "[LOG]"],
        """\
Prints the judgement of `replay` on the case, or on case and log as `check` does, and
then what it means: what an accepted log shows, and how many of its rounds are pair
rounds; what a void line shows; of a refused file the rule, the line as editors count it,
the byte, and what would have been right.""",
        "0 accepted or void, 1 refused, 2 otherwise",
        ["ceiling explain samples/valley.case", "ceiling explain samples/valley.case samples/valley.log"],
    ),
    "picture": (
        ["CASE", "LOG", "-o PAGE"],
        """\
Writes an HTML page to PAGE, or to standard output: the network, the fall of the ceiling,
each round beside the rows of the case that it touches, and why each channel is kept. The
judgement of `replay` is on the page and is the last line on standard error.""",
        "0 accepted or void, 1 refused (the page is written as far as it can be drawn), 2 otherwise",
        ["ceiling picture samples/valley.case samples/valley.log -o valley.html"],
    ),
    "show": (
        ["CASE", "LOG", "[LINK]"],
        """\
Prints the judgement of `replay` on the log as `check` does, and where it is accepted the
channel that the link, or every link, keeps with the weights after the log: its lowest
active channel that is not refuted with all other scopes raised. Beside it stand its
largest family, the channels left to each link, and the lowest partner of each of them
across each pair. Where a link keeps none, a press or a void line of it is left. Without
LINK the end says what follows for plans: where none is left and the pairs form no loop, a
plan that uses active combinations only, with its totals by the working weights, where it
meets the ceiling, and by the case sheet. An empty log (/dev/null) shows the starting
weights.""",
        "0 accepted or void (then nothing is shown), 1 refused, 2 otherwise, or the case has no such link",
        [
            "ceiling show samples/valley.case samples/valley.log",
            "ceiling show samples/valley.case samples/valley.log 0",
            "ceiling show samples/valley.case /dev/null 0",
        ],
    ),
    "score": (
        ["CASE", "PLAN..", "--log LOG"],
        """\
A PLAN is a file of whole numbers: the channel of each link from link 0 on, separated by
spaces, commas, semicolons or line ends. Its total is the figure of `replay` for the case
with these channels alone. Prints `TOTAL NAME` for each plan and then
`best TOTAL NAME`, the first of the best. In the place of its total a plan that uses
something barred has the word `unlawful`; such plans are level, below all others. With a
log of the case, also the judgement of `replay` on it, `accepted ROUNDS CEILING` or
`void`, and on standard error how far the best plan is below the ceiling.""",
        "0 scored, 1 refused, or a plan does not fit the case, 2 otherwise",
        [
            "echo 0 1 0 | ceiling score samples/triangle.case -",
            "ceiling score samples/valley.case samples/valley.plan --log samples/valley.log",
        ],
    ),
    "from-csv": (
        ["LINKS", "PAIRS", "-o CASE"],
        """\
LINKS: a header row (`link`, then the channels' names), then a row for each link: its
name and its weight on each channel. PAIRS: a header row (`first link`, `second link`,
`first channel`, `second channel`, `weight`), then rows: two links, their two channels,
and the weight; what no row names weighs 0. The word `barred` in place of a weight bars
the channel or the combination. Links, channels and pairs are numbered in the order of
the rows and columns. The separator is a comma, a semicolon or a tab. The case goes to
CASE, or to standard output.""",
        "0 converted, 1 a file cannot be converted (nothing is written), 2 otherwise",
        [
            "ceiling from-csv samples/valley-links.csv samples/valley-pairs.csv -o valley.case",
            "ceiling from-csv samples/valley-links.csv samples/valley-pairs.csv | ceiling press -",
        ],
    ),
    "to-csv": (
        ["CASE", "LINKS", "PAIRS"],
        """\
Writes the case as two spreadsheets: LINKS, a row for each link with its weight on each
channel; PAIRS, a row for each two links and channels whose weight is not 0. What is
barred is the word `barred`. Links and channels are named by their numbers: a case has no
other names. Both files are written, or none.""",
        "0 converted, 1 the case was refused (nothing is written), 2 otherwise",
        ["ceiling to-csv samples/valley.case links.csv pairs.csv"],
    ),
    "from-wcsp": (
        ["FILE", "--barred", "-o CASE"],
        """\
Makes a case of a weighted CSP in toulbar2's text format. Costs are minimised there, so a
weight is minus a cost; how totals and costs belong together is said on standard error.
Costs below 0 are refused, since programs read them differently. A cost at or above the
file's upper bound forbids its combination. With --barred it becomes a barred one, and so
do values that a variable does not have: exact, whatever the costs. Without it they weigh
-1000000, and the file is refused where other weights could make up for that.
The case goes to CASE, or to standard output.""",
        "0 converted, 1 the file cannot be converted (nothing is written), 2 otherwise",
        [
            "ceiling to-wcsp samples/valley.case | ceiling from-wcsp - -o again.case",
            "ceiling from-wcsp other.wcsp | ceiling press -",
            "ceiling to-wcsp samples/valley-barred.case | ceiling from-wcsp --barred - -o again.case",
        ],
    ),
    "to-wcsp": (
        ["CASE", "-o FILE"],
        """\
Writes the case in toulbar2's text format, to FILE or to standard output. The cost of a
plan is the ceiling minus its total; the number is said on standard error. What is barred
costs as much as the upper bound, which forbids it and is above the cost of every lawful
plan. Back again by from-wcsp all totals are lower by one number, which the two constants
give; with --barred what is barred is barred again.""",
        "0 converted, 1 the case was refused (nothing is written), 2 otherwise",
        ["ceiling to-wcsp samples/valley.case -o valley.wcsp"],
    ),
}
