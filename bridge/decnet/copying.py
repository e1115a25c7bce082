"""What people ask for with a file of another node, by the words of the command line."""
from decnet import log, nsp, scripts
from decnet.client import InputFault
from decnet.hostfile import STANDARD, HostFile, read_host
from decnet.output import Output
from decnet.parts import carry, open_node, open_signals, settings_of, start_end
from decnet.progress import Progress
from decnet.role import GOOD
from decnet.talker import Talker
from decnet.texts import Text, TextFault, changes_of, counted, numbered_of, padding_of, pieces_of, records_of


def copy(words, opened, closed):
    """Copies a file, or a record; `closed` are standard files that are."""
    signals = open_signals(words, opened)
    check_standard(words, closed)
    node = open_node(words, opened)
    out, total, script = make_script(words, opened)
    end = opened(start_end(words, signals))
    progress, output = opened(Progress(total)), None
    if out and out.path == STANDARD:
        out.file = output = opened(Output(signals))
    role = Talker(node, end, settings_of(words), script, words.patience, words.remote.text, progress, output)
    node.start()
    role.open(words.to, nsp.session(*words.images))
    status = carry(role, signals)
    if out and status == GOOD:
        out.finish()
    return status


def check_standard(words, closed):
    """A fault where a standard file is needed that is closed."""
    is_read = words.role == "copy" and words.is_stored and words.host == STANDARD
    is_written = words.role != "put" and not words.is_stored and words.host in (None, STANDARD)
    for file, name, is_needed in ((0, "input", is_read), (1, "output", is_written)):
        if is_needed and file in closed:
            raise InputFault(f"standard {name}: closed")


def make_script(words, opened):
    """The file of this host that is written, or None; how many bytes are sent, where that is known; and the script."""
    name = words.remote.name
    if words.role == "put":
        if b"\n" in words.record:
            log.say(f"{words.remote.text}: the record has an LF, and is more than one line")
        return None, None, scripts.put(name, words.record, words.number)
    if words.role == "copy" and words.is_stored:
        data = read_host(words.host)
        return None, len(data), store_script(words, name, data)
    out = opened(HostFile(words.host or STANDARD, words.replace))
    if words.role == "get":
        text = Text(out.write, Text.LINES)
        return out, None, telling_lines(scripts.get(name, words.number, text), text, words)
    text = Text(out.write, Text.NUMBERED if words.relative else None, words.role == "type" or words.lines)
    return out, None, telling_lines(scripts.fetch(name, text), text, words)


def telling_lines(script, text, words):
    """A script that gets records, and says in the end which of them are no lines."""
    yield from script
    if text.split:
        log.say(f"{words.remote.text}: {counted(text.split, 'record')} with an LF, each of which is more than one line")


def store_script(words, name, data):
    """What stores the bytes of a file of this host."""
    try:
        if words.relative:
            script = scripts.store_numbered(name, numbered_of(data), words.append)
        else:
            records = pieces_of(data, words.fixed) if words.fixed else records_of(data)
            script = scripts.store(name, records, words.append, words.fixed)
    except TextFault as fault:
        raise TextFault(f"{words.host}: {fault}") from fault
    tell_changes(words, data)
    return script


def tell_changes(words, data):
    """Says what of a file that is stored doesn't come back as it is."""
    what = "standard input" if words.host == STANDARD else words.host
    if not words.fixed and (found := changes_of(data)):
        log.say(f"{what}: stored as lines: {'; '.join(found)}. --fixed BYTES stores bytes as they are")
    elif words.fixed and (found := padding_of(data, words.fixed)):
        log.say(f"{what}: stored as records of {words.fixed} bytes: {'; '.join(found)}")
