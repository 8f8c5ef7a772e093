"""Judges what the topics, the cursors and the clients of Pulsar clusters that really run tell after a drill (docs/OBSERVED.md).

  places, markers, entries, cursors, logs, folder   read a folder of dumps into one observation a topic
  settled, judge, entry_rules, cursor_rules, marker_rules, findings   judge it; each rule is stated once, with its sentence, in findings
  words, table                                      say what was found
  phases, trace, second_opinion                     build a trace that explains it, for the program's audit
  collect, client_log                               write such folders, of running clusters
  made, plants, consequences, many                  make folders of runs of this program, plant faults into them, and ask what is found
"""
