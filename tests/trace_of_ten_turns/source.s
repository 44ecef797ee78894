# Shows: a thread that never stops: ten runs of a thousand instructions, and then the turns are over.
main: j main
