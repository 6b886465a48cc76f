"""What the help of the desk and of its commands says as well as their options."""

ABOUT = """\
Looks at rosters, and makes better ones, with the program `roster`.

Every roster and every total comes from `roster`, which is proved; the desk calls it, and adds nothing to what
is proved. What the desk counts itself, such as the costs by nurse, it compares with `roster cost`, and it stops if
they differ. It writes no roster that `roster` didn't write and read back. Only 'why' shows a row that the desk
itself found, with what `roster` counts of it."""
FILES = """\
A ward, the file that 'new' makes, stands in the place of all files, and may also be the first word of a command; it has
the first Monday, the asks and the roster in it.

The files stand in the program's order (scenario, history, week data, solutions), or are named by --sce, --his,
--weeks and --sols; without a file, standard input is read. A table of 'desk csv' is taken instead of all solutions,
also by --with, and as a spreadsheet saves it: as CSV or .xlsx, with the dates of any country. --roster PROGRAM, or
the variable DESK_ROSTER, names another program than the one of this repository. The status is that of roster: 0 for
done, 1 for a refused input, 2 for a wrong command line, 3 for a failed read or write, and 4 for too little memory.

--asks names a text of lines such as 'absent Ann 0:Mon..1:Sun' (she can't work on these days), 'gone Ann 2:Mon..3:Sun'
(nor has she a contract then), 'off Ann 2:Sat 2:Sun' (she asks to be off), 'wish Ann Late 2:Sat' (to work), 'pin Ann
0:Mon 0:Wed..0:Fri' (she is to do what the roster says now), 'fix Ann 0:Mon' (she does), 'duty Ann 1:Wed Late Nurse'
(she has that shift, which is put into the roster), 'need 2:Thu Night Trainee 1' (that day's minimum is 1) and 'today
1:Wed' (all days before stay as they are, for all nurses). Days are named so everywhere, several one after another; if
--start or a line 'start 2026-11-02' says the first Monday, they may be dates. The desk reports how many days it read
of each line. An absence is a hard rule: a roster in which Ann works then is refused, and 'improve --plan' looks for
another. So are 'fix', 'duty' and 'today'. 'off', 'wish' and 'pin' become off requests and wishes of 10 points each.
All of it is in the week data that 'weeks' writes and in all totals. What a roster fails is reported."""

IMPROVE = """

After each round the file is replaced at once, so that Ctrl-C leaves the roster of the last whole round. At the end
it has the very bytes of one run of 'roster improve'. With --polish it has those of one run of 'roster polish' with
as many searches and that seed, or a cheaper roster. With --seconds and without --polish such a run is made on each
processor, with seeds that follow one another. While runs of polish go on, the best roster that they have found goes
into the file, once a second at most; so Ctrl-C leaves that. The log has a line for each cheaper roster; it goes to
standard error, and on a terminal it is one line that changes. If something else writes the file meanwhile, that stays,
and the roster is kept in a file next to it. How many days change is no part of the penalty; it is reported at the end,
and by 'costs --with'.

If the roster in the file costs what the lower bound by --bound is, no roster that keeps the hard rules and the frozen
days costs less. It is optimal, and the run ends: no further round is made, and runs of polish that go on are left.

With --plan the roster given may break minimums, successions and absences on days that may change, and --sols may be
left out: then nobody works yet. Instead of the rounds 'roster plan' looks for a roster that keeps the hard rules,
with few searches and then with ever more, up to those that --polish says or as --seconds leaves time for. The log's
line 'missing M' says how many nurses the minimums miss before, absent ones aside. --polish and --seconds go on from
that roster. Days that no roster can staff are reported before the search, with the minimums to lower.

With --keep N each day on which a nurse has another shift than in the roster given, or is off, costs N more, in the
search and in the log. The penalty at the end is without that. Changes count from the roster given: so there is one run
of the program, and the file is written at its end.

With --few a roster that may break what it may with --plan is repaired. If it is enough that absent nurses don't
come, nothing else changes. Else each nurse who is missed may be one who changes on that day alone; and 'roster plan'
looks for a roster with --keep from 100 down to 10, and without, and each is trimmed as well: what no hard rule asks for
is taken back. The one with the fewest changed days is put into the file. All are listed with their changes and
penalties; --candidate N puts another of them into the file, by the same searches.

The file of --log ends with a line each for the time in seconds, for the searches of runs that ended, if their number
was given, the lower bound and the seed if there are any, and for the version of roster. A roster that is there is
replaced by --force alone, and so is a file of --log that is neither empty nor such a log. With a ward the roster
becomes its working one at the end, as a new version, and --out is left out."""


WHO = """

Open are the shifts that the roster gives to nurses who are absent, and the slots of days that have fewer than their
minimum; or those that --shift names. A nurse may take one if she has a row with it that keeps the hard rules, and
with which no minimum is missed that was met, while all others keep theirs: 'roster who' finds the best such row."""
SWAP = """

Each of the two gets the shifts of the other on these days, with their skills. What is reported as broken was kept
before. Such a roster isn't written."""

CHECK = """

What is taken, and hardly meant, is a warning, and leaves the status 0. The solutions may be left out: then the texts
are those of a roster to come, and days that no roster can staff are reported."""

WEEKS = """

If somebody is gone, the scenario is written as well, with a contract of her own: PREFIX-scenario.txt."""

NEXT = """

The history has for each nurse the last shift and the runs that go on: of that shift, of working days or of days off.
The totals, assignments and worked weekends, are 0, as when the competition begins: there a contract's limits hold for
the weeks of one roster. With --carry they are those up to now, for a contract whose limits hold for longer."""
