"""The planner's screen: a ward in a browser on the planner's own machine, by `./desk serve WARD`.

| Module | What it holds |
|---|---|
| starting | the command `serve`: the Python that can run it, the server, and its end |
| guard | who may ask: the key, the host, the origin, the token; and what each answer forbids the browser |
| routes | the paths, each of which passes on to one of the modules below |
| screen | the ward that is served, as it is now and as it was, and how a change becomes a version |
| snapshot | the numbers of one version, by the desk's own functions, compared with the program's |
| month | what the view of the month shows of a snapshot |
| edits, changes | cells that are set or swapped, and what that would change; all changes, each of which is one version |
| ill | open shifts, who may take them, repairs, and who has to be called |
| asks | the asks of a ward, and the staff against the minimums |
| publishing | what is published, the versions, what differs between two, and the files to save |
| others | servers of months that were laid out after this one |
| asked | what a request brings, field by field, and how it is refused |
| runs, work | runs of the program for a ward, one after the other, each in a process of its own |
| events | what a browser hears as it happens |

No rule, cost or bound is reckoned here: all numbers are those of the desk's functions and of `roster`.
"""
