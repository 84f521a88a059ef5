#!/usr/bin/env python3
"""Prints what an independent reading of the standard's rules does, as the table that the rules crates' tests compare.

    tools/rule_table.py ORACLE crates/hp_rules_page > crates/hp_base_tests/src/rows/page.rt
    tools/rule_table.py ORACLE                        the same for all four crates, as text to be read

ORACLE is the folder of the Python reference parser (builder.py, tables.py, lexer.py, tree.py), which was written from
the standard's text (13.2.6) without the crates' rows. Its rules are code, not data. So this script runs each mode's
rules on each kind of token with a recorder in place of the parser's state: the recorder writes down each act that
the rules ask for, and answers each test by a script. All scripts are tried, so a mode and a token give a list of
ways, one for each run of answers, and each way is the tests with their answers and the acts in order.

What is read so:
- A call of another mode's rules is the act As, AsFostered where fostering is on, AsPresent in foreign content.
- A name that is the token's own is written `Its`; the test brings the crates' acts into the same form.
- The comment that goes `at the present place` goes into the document in before html, where the stack is empty.
- In template writes the mode first and then replaces the template mode; the rows do it the other way round, and the
  two commute. They are recorded in the rows' order.
- The self-closing flag is off: that InsertForeign and InsertAsCurrent pop where it is on is said by those acts.
- In text a comment is inserted, as in each mode that doesn't say otherwise. ORACLE ignores it there; the lexer gives
  no comment in that mode.
"""
import sys
from pathlib import Path

from definitions import known_names, listed_sets, sets_of_rows
from row_tables import row_lists, rules_crates

OTHERS = ('other start', 'other end', 'white', 'nul', 'other', 'comment', 'doctype', 'end of input')
KEPT = object()


def camel(mode):
    return ''.join(word.capitalize() for word in mode.split())


class Stub:
    """An element that the rules hand on."""

    def __init__(self):
        self.open = False


class Asked:
    """A value that the rules test or look into: each look is a test of the script, and of the items the first one."""

    def __init__(self, recorder, test, items=()):
        self.recorder, self.test, self.items = recorder, test, items

    def __bool__(self):
        return self.recorder.asks(self.test)

    def __contains__(self, item):
        return self.recorder.asks(self.test)

    def __iter__(self):
        items, self.items = self.items, None
        return iter(items if items is not None and self.recorder.asks(self.test) else ())


class Pending:
    def __init__(self, recorder):
        self.recorder = recorder

    def append(self, token):
        self.recorder.does('Act::AppendPending')


class Recorder:
    """Stands in for the parser's state: records the acts, answers the tests by the script."""

    def __init__(self, oracle, variants, mode, token, script):
        self.__dict__.update(oracle=oracle, variants=variants, here=mode, token=token, script=script, at=0, way=[],
                             fosters=False, now='present', document=Stub(), pending=Pending(self), head_stub=Stub())

    # -- the way

    def does(self, act):
        self.way.append(act)

    def asks(self, test):
        if self.at == len(self.script):
            self.script.append(True)
        answer = self.script[self.at]
        self.__dict__['at'] = self.at + 1
        self.way.append((test, answer))
        return answer

    # -- names and sets

    def known(self, name):
        return 'Known::' + self.variants[name]

    def which(self, name):
        return 'Which::Its' if name == self.token.name else 'Which::Named(%s)' % self.known(name)

    def set_name(self, names):
        """The set of these HTML elements, of those that rows name."""
        for name in sets_of_rows():
            if listed_sets()[name] == {('html', name) for name in names}:
                return 'SetName::' + name
        raise ValueError(sorted(names))

    def scope(self, stops):
        t, b = self.oracle.tables, self.oracle.builder
        for scope, ends in (('Default', t.DEFAULT_SCOPE), ('ListItem', t.LIST_SCOPE), ('Button', t.BUTTON_SCOPE),
                            ('Table', t.TABLE_SCOPE), ('Select', b.SELECT_SCOPE)):
            if stops is ends:
                return 'Scope::' + scope
        raise ValueError(stops)

    # -- tests

    def seen(self, goals, stops):
        scope = self.scope(stops)
        if len(goals) == 1:
            return self.asks('Test::InScope(%s, %s)' % (scope, self.which(next(iter(goals)))))
        return self.asks('Test::OneInScope(%s, %s)' % (scope, self.set_name(goals)))

    def in_scope(self, name):
        return self.seen(frozenset((name,)), self.oracle.tables.DEFAULT_SCOPE)

    def current_in(self, keys):
        if len(keys) == 1:
            return self.asks('Test::CurrentIs(%s)' % self.known(next(iter(keys))))
        return self.asks('Test::CurrentIsIn(%s)' % self.set_name(keys))

    def has_template(self):
        return self.asks('Test::TemplateInStack')

    def has_form(self):
        return self.asks('Test::HasForm')

    def second_is_body(self):
        return self.asks('Test::SecondIsBody')

    def is_frameset_ok(self):
        return self.asks('Test::FramesetOk')

    def is_quirks(self):
        return self.asks('Test::IsQuirks')

    def has_context(self):
        return False

    # -- acts

    def pop(self):
        self.does('Act::Pop')

    def implied(self, but=None, names=None):
        if names is not None:
            assert names is self.oracle.tables.THOROUGH
            self.does('Act::ImpliedThoroughly')
        else:
            self.does('Act::Implied' if but is None else 'Act::ImpliedExcept(%s)' % self.which(but))

    def thru(self, goals):
        if len(goals) == 1:
            self.does('Act::Through(%s)' % self.which(next(iter(goals))))
        else:
            self.does('Act::ThroughFirstOf(%s)' % self.set_name(goals))

    def ctx(self, goals):
        self.does('Act::PopTo(%s)' % self.set_name(goals))

    def close_p(self):
        self.does('Act::CloseParagraph')

    def close_item(self, names):
        self.does({frozenset(('li',)): 'Act::CloseItem', frozenset(('dd', 'dt')): 'Act::CloseDescription'}[frozenset(names)])

    def walk(self, name):
        assert name == self.token.name
        self.does('Act::Walk')

    def push(self, element):
        assert element is self.head_stub
        self.does('Act::PushHead')

    def off_stack(self, element):
        assert element is self.head_stub
        self.does('Act::TakeHeadOff')

    def recon(self):
        self.does('Act::Reconstruct')

    def append_entry(self, element):
        self.does('Act::AppendToList')

    def marker(self):
        self.does('Act::Marker')

    def clear(self):
        self.does('Act::ClearToMarker')

    def start_a(self):
        self.does('Act::CloseLink')

    def adopt(self, name):
        self.does('Act::Adopt(%s)' % self.which(name))

    def insert(self, name, attributes=(), space='html'):
        if self.here == 'foreign':
            self.does('Act::InsertAsCurrent')
        elif space != 'html':
            assert space == name == self.token.name
            self.does('Act::InsertForeign')
        elif attributes is self.token.attributes:
            assert name == self.token.name
            self.does('Act::Insert')
        else:
            assert not attributes
            self.does('Act::InsertBare(%s)' % self.known(name))
        return Stub()

    def insert_html(self, attributes):
        self.does('Act::InsertHtml' if attributes is self.token.attributes else 'Act::InsertBareHtml')

    def insert_text(self, text):
        self.does('Act::Replacement' if text == '\ufffd' else 'Act::Characters')

    def insert_comment(self, text):
        self.does('Act::CommentIntoDocument' if self.here == 'before html' else 'Act::Comment')

    def comment_into_first(self, text):
        self.does('Act::CommentIntoFirst')

    def comment_into_document(self, text):
        self.does('Act::CommentIntoDocument')

    def add_missing(self, at, attributes):
        self.does(('Act::AddMissingToFirst', 'Act::AddMissingToBody')[at])

    def replace_body(self):
        self.does('Act::DetachBody')
        self.does('Act::PopToFirst')

    def end_form(self):
        self.does('Act::EndForm')

    def end_optgroup(self):
        """The row of /optgroup in select: an option right above an optgroup, then an optgroup."""
        if self.asks('Test::CurrentIs(Known::OPTION)'):
            if self.asks('Test::BelowIs(Known::OPTGROUP)'):
                self.pop()
        if self.asks('Test::CurrentIs(Known::OPTGROUP)'):
            self.pop()

    def pop_to_html_or_point(self):
        self.does('Act::PopToPoint')

    def foreign_end(self, name):
        if self.asks('Test::NamesForeign'):
            self.does('Act::ThroughForeign')
            return False
        return True

    def start_pending(self):
        self.does('Act::EmptyPending')

    def push_template(self, mode):
        self.does('Act::PushTemplateMode(Mode::%s)' % camel(mode))

    def pop_template(self):
        self.does('Act::PopTemplateMode')

    def replace_template(self, mode):
        switch = self.way.pop()
        assert switch == 'Act::Switch(Mode::%s)' % camel(mode)
        self.does('Act::ReplaceTemplateMode(Mode::%s)' % camel(mode))
        self.does(switch)

    def reset(self):
        self.does('Act::Reset')

    def fno(self):
        self.does('Act::FramesetNotOk')

    # -- fields

    @property
    def mode(self):
        return self.now

    @property
    def original(self):
        return KEPT

    @property
    def templates(self):
        return Asked(self, 'Test::HasTemplateModes')

    @property
    def head(self):
        return self.head_stub

    @property
    def fostering(self):
        return self.fosters

    def __setattr__(self, field, value):
        if field == 'mode':
            self.__dict__['now'] = value
            self.does('Act::ToOriginal' if value is KEPT else 'Act::Switch(Mode::%s)' % camel(value))
        elif field == 'original':
            if value is not None:
                assert value == 'present'
                self.does('Act::KeepOriginal')
        elif field == 'head':
            self.does('Act::HeadPointer')
        elif field == 'form':
            self.does('Act::FormPointer')
        elif field == 'quirks':
            self.does('Act::QuirksOfDoctype' if value is KEPT else 'Act::Quirks')
        elif field == 'skip_lf':
            assert value is True
            self.does('Act::SkipLineFeed')
        elif field == 'switch':
            self.does('Act::Lexer(Rest::%s)' % {2: 'Rcdata', 3: 'Rawtext', 4: 'Script', 5: 'Plaintext'}[value])
        elif field == 'stopped':
            assert value is True
            self.does('Act::Stop')
        elif field == 'fostering':
            self.__dict__['fosters'] = value
        else:
            raise ValueError(field)


class Oracle:
    def __init__(self, folder):
        sys.path.insert(0, str(folder))
        import builder
        import lexer
        import tables
        import tree
        self.builder, self.lexer, self.tables, self.tree = builder, lexer, tables, tree

    def ways(self, variants, mode, kind, name):
        """Each way of the mode's rules for a token, as tuples of acts and of (test, answer)."""
        out, script = [], []
        while True:
            way = tuple(self.way(variants, mode, kind, name, script))
            out.append(way)
            while script and not script[-1]:
                script.pop()
            if not script:
                return out
            script[-1] = False

    def way(self, variants, mode, kind, name, script):
        text = {'W': ' ', 'N': '\0', 'O': 'x'}.get(kind, 'x')
        token = self.lexer.Token(kind, name=name, text=text, attributes=[])
        recorder = Recorder(self, variants, mode, token, script)
        if name == 'font':
            token.attributes = Asked(recorder, 'Test::HasFontAttribute', [('', 'color', '')]) if mode == 'foreign' else []
        b = self.builder
        rules = b.Builder(recorder, fast=False)
        own = rules.modes.get(mode)
        for other in list(rules.modes):
            method = 'mode_' + other.replace(' ', '_')
            if other != mode:
                setattr(rules, method, self.used(recorder, other))
        rules.modes = {'present': lambda k: recorder.does('Act::AsPresent')}
        rules.flush_pending = lambda: recorder.does('Act::Flush')
        rules.retagged = None
        saved = {field: getattr(b, field) for field in ('put', 'doctype_quirks', 'attribute', 'TABLE_MODES')}
        b.put = lambda node, place, before=None: self.put(recorder, node, place)
        b.doctype_quirks = lambda k: KEPT
        b.attribute = lambda k, field: {'type': 'hidden'}[field] if recorder.asks('Test::TypeIsHidden') else None
        b.TABLE_MODES = Asked(recorder, 'Test::InTableModes')
        try:
            again = rules.foreign_content(token, 'svg') if mode == 'foreign' else own(token)
        finally:
            for field, value in saved.items():
                setattr(b, field, value)
        if again is b.AGAIN:
            retagged = rules.retagged
            recorder.does('Act::Again' if retagged is None else 'Act::AgainAs(%s)' % recorder.known(retagged.name))
        if mode == 'text' and kind == 'M':
            assert recorder.way == []
            return ['Act::Comment']
        return recorder.way

    @staticmethod
    def used(recorder, mode):
        return lambda k: recorder.does('Act::%s(Mode::%s)' % ('AsFostered' if recorder.fosters else 'As', camel(mode)))

    def put(self, recorder, node, place):
        assert place is recorder.document
        recorder.does('Act::PutDoctype' if isinstance(node, self.tree.Doctype) else 'Act::CommentIntoDocument')


def table(oracle, names, mode):
    """The number of the group of each kind of token, and the groups' ways."""
    variants = {text: variant for variant, text in names}
    groups = {}

    def group(kind, name):
        ways = tuple(oracle.ways(variants, mode, kind, name))
        return groups.setdefault(ways, len(groups))

    starts = [group('S', text) for _, text in names] + [group('S', 'other-name')]
    ends = [group('E', text) for _, text in names] + [group('E', 'other-name')]
    rest = [group(kind, '') for kind in 'WNOMD'] + [group('Z', '') if mode != 'foreign' else groups.setdefault(((),), len(groups))]
    return starts, ends, rest, list(groups)


def show(names, modes, tables):
    for mode, (starts, ends, rest, groups) in zip(modes, tables):
        print('== ' + mode)
        texts = [text for _, text in names] + ['(other)']
        for number, ways in enumerate(groups):
            found = [name for name, at in (('start', starts), ('end', ends)) if number in at for name in
                     ['%s: %s' % (name, ' '.join(text for text, g in zip(texts, at) if g == number))]]
            found += [kind for kind, g in zip(OTHERS[2:], rest) if g == number]
            print('; '.join(found))
            for way in ways:
                print('    ' + '; '.join(part if isinstance(part, str) else '%s %s' % (part[0], 'yes' if part[1] else 'no') for part in way))


def step(part):
    if isinstance(part, str):
        return 'Does(%s)' % part
    return 'Asked(%s, %s)' % (part[0], 'true' if part[1] else 'false')


def write(names, modes, tables):
    print('//! What an independent reading of the rules does in %s.' % ', '.join(modes))
    print('//! `tools/rule_table.py` prints this file, and without a crate the same as text to be read.')
    print('use super::Step::{self, Asked, Does};')
    print('use hp_elements::{Act, Known, Mode, Rest, Scope, SetName, Test, Which};')
    print()
    write_tokens(names, tables)
    write_ways(tables)


def write_tokens(names, tables):
    """The groups of each kind of token."""
    named = []
    for column, (starts, ends, _, _) in enumerate(tables):
        for word, groups in (('true', starts), ('false', ends)):
            named += [(column, word, number, group, text) for number, ((_, text), group) in enumerate(zip(names, groups)) if group != groups[-1]]
    print('/// The known names whose tag has another group than the tag of another name: the column of the mode, whether it is')
    print('/// a start tag, the number of the name, the group.')
    print('pub(super) static NAMED: [(usize, bool, usize, u8); %d] = [' % len(named))
    for entry in named:
        print('    (%d, %s, %d, %d), // %s' % entry)
    print('];')
    print()
    print('/// The groups of what has no known name, a row for each and a column a mode: %s.' % ', '.join(OTHERS))
    print('pub(super) static NAMELESS: [&[u8]; %d] = [' % len(OTHERS))
    for place, other in enumerate(OTHERS):
        of = lambda t: t[0][-1] if place == 0 else t[1][-1] if place == 1 else t[2][place - 2]
        print('    &[%s],' % ', '.join(str(of(t)) for t in tables))
    print('];')
    print()


def write_ways(tables):
    """The groups' ways."""
    ways = [(column, number, [step(part) for part in way]) for column, t in enumerate(tables) for number, group in enumerate(t[3]) for way in group]
    steps = []
    for _, _, way in ways:
        steps += [part for part in way if part not in steps]
    print('/// The steps of the ways.')
    print('pub(super) static STEPS: [Step; %d] = [' % len(steps))
    for part in steps:
        print('    %s,' % part)
    print('];')
    print()
    places, entries = [], []
    for column, number, way in ways:
        entries.append((column, number, len(places), len(places) + len(way)))
        places += [steps.index(part) for part in way]
    print('/// Each way: the column of its mode, its group, and from where to where the places of its steps stand in `PLACES`.')
    print('pub(super) static WAYS: [(usize, u8, usize, usize); %d] = [' % len(entries))
    for entry in entries:
        print('    (%d, %d, %d, %d),' % entry)
    print('];')
    print()
    print("/// The places in `STEPS` of the ways' steps, way after way.")
    print('pub(super) static PLACES: [u8; %d] = [%s];' % (len(places), ', '.join(map(str, places))))


def main(oracle, crate=None):
    names = [(name.constant, name.text) for name in known_names()]
    oracle = Oracle(oracle)
    for found in [Path(crate).resolve()] if crate else rules_crates():
        modes = [name.replace('_', ' ') for name in row_lists(found)]
        tables = [table(oracle, names, mode) for mode in modes]
        if crate is None:
            show(names, modes, tables)
        else:
            write(names, modes, tables)


if __name__ == '__main__':
    main(*sys.argv[1:])
