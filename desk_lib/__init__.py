"""The planner's desk: what `./desk` does around the program `roster`.

| Module | What it holds |
|---|---|
| command_line, parsing, helps, options | the words of the command line, its help, and the options of each command |
| given, commands | what a command works on, and what each does |
| texts | the files, and the places in them: file, line, word |
| case | the types of a case and of rosters, and what is counted of these |
| grammar | words, sections and parts of the texts |
| model | the case and the roster of texts that the program takes |
| days | days as words name them |
| program, lower_bound | how the program `roster` is found and called, and the lower bound that it proves |
| costs, tables, breaches | what each nurse costs by rule, and where a hard rule is broken |
| check, findings, hidden, recovery, names, doubts | all that is wrong with texts, and what is hardly meant |
| shortage | days that no roster can staff |
| sheet, grid, page, views, plot | a roster to look at, on a terminal and in a browser |
| calendar_file | a nurse's shifts as a calendar |
| improve, polish, near, filling, trimming, split, replacing, signals | rosters that are written, and what ends that early |
| outputs | what may not be written |
| asks, asked_texts, gone | absences, fixed days, duties, pins and needs, and the texts with them |
| why, best_row | what it would cost to meet a request, and the search for the cheapest row that does |
| who, swap | who may take a shift, and a swap of two nurses' days |
| next_month | the history that a roster leaves, and the folder of the next month |
| balances | nights, weekends, unmet requests and changes of each nurse |
| spreadsheet | tables as spreadsheets save them |
| cutting | greatest numbers that can't bind, which the program gets cut |
| ward | a ward in one file, which remembers |
| serve | a ward in a browser |

Every roster and every total is the program's. What is counted here is compared with the program before it is shown.
"""
