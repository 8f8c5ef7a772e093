"""The style and the script of a page, and the rules that hang on its columns."""
import os

HERE = os.path.dirname(os.path.abspath(__file__))
# the width of a folded column, in which its line stands, in pixels
FOLDED = 26
# a lane folds to a line from the beginning where more than so many would be open
MOST_OPEN = 6
# in the style the window in which an event stands above its row; in pixels its width, that of an event's column, of a column at least, and
# of what stands beside them (page.css)
NARROW, NARROW_WIDTH, EVENT, LEAST, BESIDE = '(max-width: 720px)', 720, 330, 104, 48
# in such a window the least width of a column where there are more than so many, so that words stay whole; the page is then wider
MANY, LEAST_OF_MANY = 6, 84
# how wide a lane is beside a client's column
LANE = '1.35fr'


def read(name):
    with open(os.path.join(HERE, name), encoding='utf-8') as file:
        return file.read()


def open_topics(columns):
    """How many topics have their lanes open from the beginning."""
    return len(columns.script.topics) if len(columns.lanes) <= MOST_OPEN else 1


def style_text(columns):
    """The style. The event stands above its row where both do not fit into the window, and there it stays in sight."""
    script, is_open = columns.script, columns.script.topics[:open_topics(columns)]
    count = len(is_open) * len(script.clusters) + sum(script.topic_of[client] in is_open for client in columns.clients)
    width = EVENT + LEAST * count + FOLDED * (len(columns.at) - count) + BESIDE
    narrow = '(max-width: %dpx)' % max(NARROW_WIDTH, width)
    many = '@media %s { :root { --least: %dpx; } }\n' % (narrow, LEAST_OF_MANY) if count > MANY else ''
    return read('page.css').replace(NARROW, narrow) + many


def script_text():
    return read('page.js')


def column_rules(columns):
    """The columns of the grid: each a variable, so that a box folds it."""
    lanes, count = len(columns.lanes), len(columns.at)
    widths = ''.join('--w%d:minmax(var(--least),%s);' % (at, LANE if at < lanes else '1fr') for at in range(count))
    return '.run{%s--cols:%s}\n' % (widths, ' '.join('var(--w%d)' % at for at in range(count)))


def chooser_rules(columns):
    """Of each column which boxes fold it."""
    script, rules = columns.script, []
    for at, (topic, cluster) in enumerate(columns.lanes):
        boxes = ['x%d' % script.clusters.index(cluster)] + (['t%d' % script.topics.index(topic)] if len(script.topics) > 1 else [])
        rules += [folds(box, at) for box in boxes]
    for number, client in enumerate(columns.clients):
        boxes = ['c%d' % number] + (['t%d' % script.topics.index(script.topic_of[client])] if len(script.topics) > 1 else [])
        rules += [folds(box, columns.at[client]) for box in boxes]
    return ''.join(rules)


def folds(box, column):
    where = '.wh:has(#%s:not(:checked)) .run' % box
    return '%s{--w%d:%dpx}%s .k%d>:not(b):not(.v){display:none}\n' % (where, column, FOLDED, where, column)


# each sign with what it means; it has classes of its own where the browser's check counts those of the drawing
KEY = (
    ('<span class="kd"><b class="d q0"></b></span>', 'message stored'), ('<span class="kd"><b class="m q0"></b></span>', 'marker stored'),
    ('<span class="ka"><b class="a rt q0"></b></span>', 'brought by replication'),
    ('<i class="br" style="background:linear-gradient(90deg,var(--da) 45%,var(--li) 45% 60%,var(--da) 60% 75%,var(--li) 75% 90%,transparent 90%)"></i>',
     'subscription: dark is acknowledged, light is not (a hole between dark ones)'),
    ('<span class="kb"><i class="ax ls"></i></span>', 'region lost'), ('<span class="kb"><i class="ax si"></i></span>', 'silent until its restart'),
    ('<span class="kb"><i class="cu"></i></span>', 'link cut'), ('<span class="kb"><i class="wa"></i></span>', 'link held'),
    ('<b class="x">\u21bb</b>', 'restart or halt'), ('<span class="il">idle</span>', 'it changed nothing'),
    ('<b class="re">\u21ba</b> <span class="tg again">again</span>', 'the client got it before'),
    ('<span class="tg after">after C</span>', 'C did, of its subscription'))


def key():
    return '<ul class="ky-list" aria-label="Signs">%s</ul>' % ''.join('<li>%s %s</li>' % sign for sign in KEY)
