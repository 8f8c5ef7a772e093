"""The tools by their names: python3 tools/geo_tools NAME WORD ..

  drill        plays a drill and tells it by its own lines              ./geo drill
  story        prints a script with what each of its events did         ./geo story
  page         makes a page of a run, for a browser                     ./geo page
  why          says why a script, a trace or a state is refused         ./geo why
  check        checks the tools, the drills and what is stored          tools/check
  live         runs a script on threads for many seeds                  tools/live
  pages        prints what the heads of crates, functions and proofs say  tools/pages
  edits        tries the edits that the prover has to refuse            tools/edits
  weak         looks for wrong bodies that contracts let through        tools/weak
  observed     judges what clusters that really run tell after a drill  tools/observed
  help         what ./geo can be told, and the manual page              ./geo help
  completion   the completion for a shell                               ./geo completion
  refused      what ./geo has told of a refusal, behind each one
  json         one document of an answer, for --json of ./geo

  examples     makes and checks the input and output of crates/geo_examples
  compacted    makes the compacted views of a run from its report
  tiered       makes what `geo tiered` prints, from a script and its report
  losses       makes what `geo lost` prints, from a run's report, trace and steps
  states       writes state files by the rules of their form, and broken ones
  slow         prints scripts that are slow where something is walked that could be looked up

  definitions  computes runs by the definitions, inside the checker
  planted      plants errors in the definitions, and says which computed runs refuse each
  random       makes random scripts, and has the definitions compute them
  audit        audits traces apart from the program, and compares
  memory       refuses the program each of its allocations in turn

NAME --help has the words of each.
"""
import importlib
import os
import sys

if not __package__:
    # run as a folder: the package is found beside it
    sys.path[0] = os.path.dirname(os.path.dirname(os.path.abspath(__file__)))
    __package__ = 'geo_tools'

MODULES = {
    'drill': 'drill.main', 'story': 'story', 'page': 'page.document', 'why': 'refusals', 'check': 'check',
    'live': 'live_runs', 'pages': 'pages', 'edits': 'contracts.edits', 'weak': 'contracts.weak', 'observed': 'observed.main', 'help': 'help', 'completion': 'completion',
    'refused': 'refusals.behind', 'json': 'documents',
    'examples': 'stored.examples', 'compacted': 'stored.compacted', 'tiered': 'stored.tiered', 'losses': 'stored.losses', 'states': 'stored.states', 'slow': 'stored.slow',
    'definitions': 'computed.main', 'planted': 'computed.planted', 'random': 'computed.random_runs',
    'audit': 'apart.audit', 'memory': 'apart.memory'}
# those that have words of their own behind --help
PARSING = ('drill', 'story', 'page', 'check', 'live', 'edits', 'weak', 'observed', 'help')
# the status of wrong words
WRONG_WORDS = 2


def main(words):
    """Runs the tool that the first word names; gives its status."""
    if words[:1] in (['-h'], ['--help']):
        print(__doc__)
        return 0
    if not words or words[0] not in MODULES:
        print(__doc__, file=sys.stderr)
        return WRONG_WORDS
    module = importlib.import_module('geo_tools.' + MODULES[words[0]])
    if words[0] not in PARSING and words[1:] in (['-h'], ['--help']):
        print(module.__doc__)
        return 0
    try:
        status = module.main(words[1:])
        sys.stdout.flush()
    except BrokenPipeError:
        # who read has enough
        os.dup2(os.open(os.devnull, os.O_WRONLY), sys.stdout.fileno())
        return 0
    return status


if __name__ == '__main__':
    sys.exit(main(sys.argv[1:]))
