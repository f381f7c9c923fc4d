"""The road in: from a folder of running configurations to a text that Bonsai reads.

The stages are `read` (a folder as routers), `rules` (what says the same in the profile), `judge` (the program's verdict
on the text) and `report` (each line that did not reach the text unchanged).
"""
