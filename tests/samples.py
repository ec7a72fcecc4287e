"""What must come of each sample, worked out from the papers: samples.py FOLDER writes there NAME.out, what the lister must write for
NAME.vsp; NAME-show.out and .err, what show writes for it; for words the files NAME-words.options, .entry, .out and .err, as maker.py does;
NAME-diff.status, .out and .err, what comes of comparing approved.vsp with NAME.vsp, and versions-diff, of comparing whole.vsp with halves.vsp;
and NAME-RUN-replay.status, .out, .steps and .err, what comes of NAME.vsp and RUN.run.

The text beside each sample must have what show writes, and the text of each word that it explains; it must name the sweeps or the refusal; where
it is there to be compared, it must have the list and name the summary; where it is replayed, it must have the answer. The verdicts are those that
the samples are there for."""
import os
import re
import sys
import front
from disassembly import column, shown
from paper01 import infer, listing, low_and_high, parts
from replay import EVERY, FLAT_RUN

folder = os.path.join(os.path.dirname(os.path.abspath(__file__)), '..', 'samples')
verdicts = {'approved': 'ACCEPTED', 'unfilled': 'REFUSED 20 0003 05L', 'lying': 'REFUSED 22 0002 05L', 'stray': 'REFUSED 03 0002 64 08',
            'loop': 'ACCEPTED', 'trusting': 'ACCEPTED', 'inferred': 'ACCEPTED', 'special': 'ACCEPTED', 'sloped': 'ACCEPTED', 'inserted': 'ACCEPTED',
            'shortened': 'ACCEPTED', 'omitted': 'REFUSED 02 0003 64 00', 'halves': 'ACCEPTED', 'whole': 'REFUSED 22 0001 01L',
            'level': 'ACCEPTED', 'tilted': 'ACCEPTED'}
# By the sample whose text says it: the words, the version, the entry set, and what it says. Where notes are made, the parcel is that sample.
noted = {'approved': ('approved', 1, [0, 1], '5 sweeps'), 'inferred': ('inferred', 1, [0, 1], '6 sweeps'),
         'unfilled': ('unfilled', 1, [0, 1], '`REFUSED 24 0000 64`'), 'halves': ('halves', 2, [0], '4 sweeps'),
         'whole': ('halves', 1, [0], '`REFUSED 24 0000 64`')}
# What is to be compared with what, the text that says so, and what of standard error it names.
compared = {('approved', 'approved'): ('diff', 'vsp: nothing differs: the two parcels are the same, byte for byte'),
            ('approved', 'sloped'): ('sloped', 'vsp: 1 of 5 instructions differs'),
            ('approved', 'inserted'): ('inserted', 'vsp: 4 of the 5 instructions that both have differ; 1 added; the notes of 2 differ'),
            ('approved', 'shortened'): ('shortened', 'vsp: 3 of the 4 instructions that both have differ; 1 removed; the entry sets differ'),
            ('approved', 'stray'): ('diff', 'REFUSED 03 0002 64 08'),
            ('whole', 'halves'): ('halves', 'vsp: the versions differ; the note of 1 instruction differs')}

# What the runs say; and which parcel is replayed with which run, the texts that say so, and what of standard error they name.
runs = {'flat': FLAT_RUN._replace(limit=1000), 'logged': FLAT_RUN._replace(limit=1000, registers=EVERY)}
replays = {('level', 'flat'): ('level', ''), ('tilted', 'logged'): ('replay', ''),
           ('tilted', 'flat'): ('tilted', 'vsp: r0 is the lowest register that is not as recorded after step 2; '
                                'after the steps before it all 64 registers are.'),
           ('approved', 'flat'): ('replay', 'refused with 30: instruction 2 (FRCP.f32 r4, u2) is none that replay runs')}


def stored(name):
    with open(os.path.join(folder, name), 'rb') as f:
        return f.read()


def write(name, data):
    with open(os.path.join(sys.argv[1], name), 'wb') as f:
        f.write(data)


def write_diff(name, *pair):
    files = [f'samples/{file}.vsp' for file in pair]
    front.write_comparison(sys.argv[1], name + '-diff', *(stored(file + '.vsp') for file in pair), files)


def names(ending):
    return {f[:-len(ending)] for f in os.listdir(folder) if f.endswith(ending)}


def blocks(name):
    """The lines of the text that are set in, by the command in the line above them."""
    found = re.findall('^( {,3}[^ ].*)\n+(    .*\n(?:\n?    .*\n)*)', stored(name + '.txt').decode(), re.M)
    return {line.partition('`')[2].partition('`')[0]: re.sub('^    ', '', block, flags=re.M) for line, block in found}


def diff_of(pair):
    return './vsp diff samples/%s.vsp samples/%s.vsp' % pair


def comparison(pair):
    """The status of the comparison, the list, and standard error."""
    return front.comparison(*(stored(name + '.vsp') for name in pair), pair)


def replay_of(pair, option=''):
    return f'./vsp replay {option}samples/%s.vsp samples/%s.run' % pair


def replayed(parcel, run):
    """The status of the replay, the answer, the same after the steps, and standard error."""
    return front.replayed(stored(parcel + '.vsp'), runs[run], f'samples/{run}.run')


def answers(name):
    """What the text has of replays: the answer, and of the samples that are there for it also the steps."""
    due = {}
    for pair, (about, _) in replays.items():
        if about == name:
            _, due[replay_of(pair)], shown_steps, _ = replayed(*pair)
            due.update({replay_of(pair, '--steps '): shown_steps} if name != 'replay' else {})
    return due


def notes_call(words, version, entry):
    option = '' if version == 1 else f'--version {version} '
    return f'./vsp notes {option}samples/{words}.words ' + ','.join(f'r{r}' for r in entry)


def commands(name):
    """What the text has under each command: what show writes, and the listing and the list where the sample is there for them."""
    data = stored(name + '.vsp')
    due = {'./vsp show': shown(data)}
    if name in ('approved', 'stray'):
        due['./vsp list'] = listing(data)
    due.update((diff_of(pair), comparison(pair)[1]) for pair, (about, _) in compared.items() if about == name)
    return {**due, **answers(name)}


def explained(name):
    """Holds the words that the text explains to what show has for them; there is one at least."""
    text, (_, words, _) = stored(name + '.txt').decode(), parts(stored(name + '.vsp'))
    lines = re.findall('^([0-9]+)  ([0-9A-F]{16})  (.*)$', text, re.M)
    for i, digits, said in lines:
        assert (int(digits, 16), said) == (words[int(i)], column(words, int(i), {})), (name, i, digits, said)
    assert lines and not re.search(r'r[0-9]+\^', text), name


def readme():
    with open(os.path.join(folder, '..', 'README.md'), encoding='utf8') as f:
        return f.read()


def set_in(*texts):
    """Lines of texts as README has them."""
    return ''.join(f'    {line}'.rstrip() + '\n' for text in texts for line in text.splitlines())


def readme_shows():
    """README's first screen has what show writes of the sample that was refused."""
    said = set_in('$ ./vsp show samples/unfilled.vsp', shown(stored('unfilled.vsp')))
    assert 0 < readme().find(said) < readme().find('\n## '), said


def readme_replays():
    """README has what replay writes of the samples that are there for it, and the run that they are held to."""
    _, answer, _, error = replayed('level', 'flat')
    assert '\n\n' + set_in('$ ' + replay_of(('level', 'flat')), answer, error) + '\n' in readme()
    _, _, shown_steps, error = replayed('tilted', 'flat')
    assert '\n\n' + set_in('$ ' + replay_of(('tilted', 'flat'), '--steps '), shown_steps, error) + '\n' in readme()
    assert '\n\n' + set_in(stored('flat.run').decode()) + '\n' in readme()


readme_shows()
readme_replays()
assert names('.vsp') == set(verdicts) and names('.words') == {words for words, *_ in noted.values()}, (names('.vsp'), names('.words'))
for name, verdict in verdicts.items():
    expected = listing(stored(name + '.vsp'))
    assert expected.endswith(verdict + '\n'), (name, expected)
    assert blocks(name) == commands(name), (name, blocks(name), commands(name))
    explained(name)
    write(name + '.out', expected.encode())
    write(name + '-show.out', shown(stored(name + '.vsp')).encode())
    write(name + '-show.err', b'')
    write_diff(name, 'approved', name)
write_diff('versions', 'whole', 'halves')
for name, (words, version, entry, told) in noted.items():
    data, text = stored(words + '.words'), stored(name + '.txt').decode()
    result = infer(version, data, *low_and_high(entry))
    said = front.answer(version, data, result)
    assert f'`{notes_call(words, version, entry)}`' in text.replace('\n', ' ') and told in text and told.strip('`') in said, (name, said)
    assert result[0] == 'refused' or result[2] == stored(name + '.vsp'), name
    write(name + '-words.options', b'' if version == 1 else f'--version {version}'.encode())
    write(name + '-words.entry', ','.join(f'r{r}' for r in entry).encode())
    write(name + '-words.out', result[2] if result[0] == 'notes' else b'')
    write(name + '-words.err', said.encode())
for pair, (about, told) in compared.items():
    text = stored(about + '.txt').decode()
    status, said, error = comparison(pair)
    assert f'`{diff_of(pair)}` prints' in text and f'ends with status {status}' in text, (pair, status)
    assert f'`{told}`' in text and told in error, (pair, error)
    assert blocks(about).get(diff_of(pair), '') == said, (pair, said)
assert names('.run') == set(runs) and blocks('replay') == answers('replay'), blocks('replay')
for pair, (about, told) in replays.items():
    text = stored(about + '.txt').decode().replace('\n', ' ')
    status, _, _, error = replayed(*pair)
    assert f'`{replay_of(pair)}` prints' in text and f'ends with status {status}' in text, (pair, status)
    assert told in error and (f'`{told}`' in text or not told), (pair, error)
    front.write_replay(sys.argv[1], '%s-%s-replay' % pair, stored(pair[0] + '.vsp'), runs[pair[1]], f'samples/{pair[1]}.run')
