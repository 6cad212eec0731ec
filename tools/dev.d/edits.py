"""The edits of a crate's folders of wrong programs, for the verbs that read them.

A file is one edit, by the file's name; or it has several, each behind a line `--- NAME`. The toolchain reads must-fail itself: a file there is
one edit.
"""
import collections
import re

FOLDERS = GATE, APART, DEFINITIONS = 'must-fail', 'must-fail-too', 'wrong-definitions'
Edit = collections.namedtuple('Edit', 'crate path label text')
HEAD = re.compile(r'^--- (\w+)$', re.M)


def edits(crate, folder):
    """The edits of one of a crate's folders."""
    for path in sorted(crate.glob(f'{folder}/*.edit')):
        text = path.read_text(encoding='utf-8')
        # what stands before the first name, then a name and its edit in turns
        first, *parts = HEAD.split(text) if folder != GATE else [text]
        if first.strip():
            yield Edit(crate.name, path, path.stem, first)
        for label, part in zip(parts[::2], parts[1::2]):
            yield Edit(crate.name, path, label, part.lstrip('\n'))
