"""Draws a run of a script as an SVG: what each bucket had in it, command by command.

It reads the script and the replies, and tells what these say; it looks for no causes and keeps no queues of its own.

    no_drawing   why there is nothing to draw
    script       the settings and commands of a script
    replies      the replies to them
    program      runs the program for its replies
    story        what became of each chunk
    part         which commands are drawn
    rows         which buckets and lanes are drawn
    text         how wide words are, and how they are wrapped
    svg          the text of elements
    style        colours and measures
    marks        the shapes that stand for what happened
    layout       where everything stands
    heading      the title, the settings, and the commands with their replies
    buckets      the rows of buckets and the chunks in them
    legend       what colours and marks mean
    picture      the whole drawing
"""
