"""A ward in one file, which remembers: `NAME.ward`.

| Module | What it holds |
|---|---|
| file | the database: how it is made, opened, checked and locked |
| store | what a ward has, by types; versions, and how one is added |
| creating | a ward made of texts, of a folder or of a bundle |
| staff | a ward made of a table of nurses |
| asking | the asks: how they are written, kept and clipped to the weeks |
| rosters | rosters that are searched for, repaired, taken and published |
| versions | versions, undo and redo, what differs, and a backup |
| months | the month after, and the files of a ward |
| balances | what each nurse has had of nights, weekends, unmet requests and changes |
| commands | the commands, each of which takes its options |

docs/WARD-FILE.md says what the tables mean. The other commands of the desk take a ward through desk_lib/given.py.
"""
