"""Computes runs by the definitions of crates/, inside the checker: their reports, their traces, their steps, and what is lost at their end.

usage: geo_tools definitions write OUT NAME.geo ..    writes OUT/Run_NAME.antt for each script: that its report is NAME.report
       geo_tools definitions check NAME.geo ..        computes the reports in a copy of the crate, and says which agree
       geo_tools definitions traces NAME.geo ..       the same of the traces that ./geo trace writes of the scripts
       geo_tools definitions steps NAME.geo|.txt ..   the same of the steps that ./geo steps writes of the scripts, and of those that a
                                                      file of answers/ has
       geo_tools definitions lost ANSWERS.txt ..      the same of what is lost if a cluster goes, as files of answers/ have it of scripts
"""
import sys

from . import definitions, lost_runs, step_runs


def main(words):
    if len(words) > 2 and words[0] == 'write':
        definitions.write(words[1], words[2:])
        return 0
    if len(words) > 1 and words[0] == 'check':
        return definitions.check(words[1:])
    if len(words) > 1 and words[0] == 'traces':
        return definitions.check(words[1:], definitions.copy_for_traces)
    if len(words) > 1 and words[0] == 'steps':
        return step_runs.check(words[1:])
    if len(words) > 1 and words[0] == 'lost':
        return lost_runs.check(words[1:])
    print(__doc__, file=sys.stderr)
    return 2
