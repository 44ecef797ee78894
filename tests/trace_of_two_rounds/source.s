# Shows: a thread that never stops, on one node. A round has 64 runs, and the turns are counted at its end: so there are two rounds for 65.
main: j main
