"""Help, pages made of heads, and what README and the pages say of commands."""
import os
import re
import unittest

from geo_tools import completion, help as help_text, pages
from geo_tools.program import ROOT


def page(name):
    with open(os.path.join(ROOT, name), encoding='utf-8') as file:
        return file.read()


def headings(text):
    """The places of a page: its headings, as a browser's address has them."""
    return {re.sub(r'[^\w\- ]', '', head.lower()).replace(' ', '-') for head in re.findall(r'^#+ (.*)$', text, re.M)}


class Heads(unittest.TestCase):
    """Each crate, and each function with clauses, says what it is."""

    def test_each_crate_has_a_head(self):
        for crate, _ in pages.crates():
            if crate is not None:
                with self.subTest(crate):
                    self.assertTrue(pages.crate_head(crate))

    def test_each_module_of_definitions_has_a_head(self):
        self.assertEqual(pages.modules('geo_base')[:3], ['Name', 'Metadata', 'Types'])
        for crate, _ in pages.crates():
            for name in pages.modules(crate) if crate else []:
                with self.subTest('%s %s' % (crate, name)):
                    self.assertTrue(pages.head('%s/crates/%s/specs/%s.antt' % (ROOT, crate, name), '--'))

    def test_each_promise_is_told(self):
        """The fields of HoldsOf stand in CLAIMS' table in their order, each with a sentence in the record, and README has a paragraph of each."""
        found = list(pages.promises())
        self.assertTrue(all(said for _, said in found))
        rows = page('docs/CLAIMS.md').split('| field |')[1].split('\n\n')[0].split('\n')[2:]
        told = [name for row in rows for name in re.findall(r'`(\w+)`', row.split('|')[1].split('(')[0])]
        self.assertEqual([field for field, _ in found], told)
        for field, _ in found:
            self.assertTrue(re.search(r'\((?:`\w+`, )*`%s`' % field, page('README.md')), field)

    def test_functions_are_found(self):
        found = {name: clauses for path in pages.files_below(ROOT + '/crates/world_laws/src', '.rt') for name, _, clauses in pages.functions(path)}
        self.assertEqual(found['law_once'], ['always'])
        self.assertIn('law_prefix', found)
        own = [name for path in pages.files_below(ROOT + '/crates/dispatcher/src', '.rt') for name, _, _ in pages.functions(path)]
        self.assertIn('Dispatcher::choice', own)

    def test_functions_have_docs(self):
        for crate, _ in pages.crates():
            if crate is None:
                continue
            for path in pages.files_below('%s/crates/%s/src' % (ROOT, crate), '.rt'):
                for name, doc, _ in pages.functions(path):
                    with self.subTest('%s %s' % (crate, name)):
                        self.assertTrue(doc)


class Help(unittest.TestCase):
    """commands.txt is what help, the manual and the completions say; the wrapper knows the same words."""

    def test_each_command_is_complete(self):
        for command in help_text.commands():
            with self.subTest(command.words):
                self.assertTrue(command.does)
                self.assertIn(command.name, help_text.overview())
                if command.page:
                    self.assertTrue(os.path.exists('%s/docs/%s.md' % (ROOT, command.page)))

    def test_manual_and_completions(self):
        names = [command.name for command in help_text.commands() if command.kind == 'command']
        for name in names:
            self.assertIn('.B ' + name, help_text.manual())
            self.assertIn(name, completion.completion('bash'))
            self.assertIn("'%s:" % name, completion.completion('zsh'))
        self.assertIsNone(completion.completion('fish'))

    def test_wrapper_knows_the_tools(self):
        words = re.search(r'^tool_words="(.*)"$', page('geo'), re.M)[1].split()
        known = [command.name for command in help_text.commands()]
        self.assertEqual([word for word in words if word not in known], [])


class Links(unittest.TestCase):
    """What the pages link to is there."""

    def test_links(self):
        for folder, _, names in os.walk(ROOT):
            if '/.' in folder or '/out' in folder:
                continue
            for name in names:
                if not name.endswith('.md'):
                    continue
                text = page(os.path.relpath(os.path.join(folder, name), ROOT))
                for target in re.findall(r'\]\(([^)#:]+)(?:#[^)]*)?\)', text):
                    with self.subTest('%s -> %s' % (name, target)):
                        self.assertTrue(os.path.exists(os.path.join(folder, target)))

    def test_places_in_pages(self):
        """A link to a heading, of the same page or of another one, names one that stands there."""
        for folder in ('', 'docs/'):
            for name in sorted(os.listdir(os.path.join(ROOT, folder))):
                if not name.endswith('.md'):
                    continue
                for to, target in re.findall(r'\]\(([^)#:]*)#([^)]*)\)', page(folder + name)):
                    with self.subTest('%s -> %s#%s' % (name, to, target)):
                        self.assertIn(target, headings(page(os.path.normpath(folder + (to or name)))))


if __name__ == '__main__':
    unittest.main()
