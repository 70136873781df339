"""Cases: what they say, and how they are read from their files. cases/README.md describes the form of a file.

A case is also read from a folder, of another form. It has the files
  words    the words of the command line, one a line
  input    what the program reads
  output   what it must print
  errors   what it must write to its errors
  status   the exit status it must end with
and where it calls a server, the files `server` (the server's words), `server_errors` and `server_status`. A case of more programs has
instead of all these a file `programs` (on the first line the names of the servers, on each further line the names of clients that run
at once) and a folder with the five files for each of them.
"""
import bisect
import collections
import os
import re

from texts import BadCase, digit_bytes, exact_bytes, plain_bytes, words_of

# A run of the program: its name in the case, its words, what it reads, what it must print and end with. `places` has for each piece of
# the output, and of the errors, where it begins in it and the line of the case's file that says it.
Run = collections.namedtuple("Run", "name words input output errors status places")

# Datagrams that come to a server from an address of the case's own: its name, the server's, and the bytes of each; and those that must have
# come to the address in the end, an empty list where it isn't looked at.
Peer = collections.namedtuple("Peer", "name server datagrams wanted")

# A file in the folder in which the programs run: its name, and its bytes before the first of them starts and after the last has ended;
# nothing where there is no such file then.
File = collections.namedtuple("File", "name before after")

# A case: its file or folder, what it shows, its servers, the peers that send to them, its clients: lists of those that run at once, one
# after the other; the servers that are killed and started again while they run, a list for each of these lists; its files, those that must
# be journals in the end, and whether its replies have to be those of one thread.
Case = collections.namedtuple("Case", "path about servers peers clients restarts files journals one_thread")

INPUT, OUTPUT, ERRORS = "<", ">", "!"
FOLDER_FILES = {"words", "input", "output", "errors", "status", "programs", "server"}
TODO = "TODO"
MARKED = re.compile(r"([<>!])(=?)(?: (.*))?")
SECTION = re.compile(r"\[(server|client|and client|datagrams) (\w+)(?: to (\w+))?\]")
FILE_SECTION = re.compile(r"\[file (\w[\w.]*)\]")
MARK = re.compile(r"\[(restart|journal|one thread)(?: (\w[\w.]*))?\]")


def case_of(run):
    """The case of one run by itself."""
    return Case("", "", [], [], [[run]], [[]], [], [], False)


class Section:
    """The lines of one program in a case's file."""

    def __init__(self, kind, name, server=None):
        if (kind == "datagrams") != (server is not None):
            raise BadCase("only datagrams go to a server")
        self.kind, self.name, self.server = kind, name, server
        self.words = self.status = None
        self.texts = {INPUT: b"", OUTPUT: b"", ERRORS: b""}
        self.places = {OUTPUT: [], ERRORS: []}

    def add(self, line, number):
        marked = MARKED.fullmatch(line)
        if marked:
            self.add_text(marked[1], exact_bytes(marked[3] or "") if marked[2] else plain_bytes(marked[3]), number)
        elif re.match(r"\$(\s|$)", line) and self.words is None:
            self.words = words_of(line[1:])
        elif re.fullmatch(r"= [0-9]+( +#.*)?", line) and self.status is None:
            self.status = int(line.split()[1])
        else:
            raise BadCase("no line of a case, or one that it has already")

    def add_text(self, mark, text, number):
        if mark in self.places:
            self.places[mark].append((len(self.texts[mark]), number))
        self.texts[mark] += text

    def peer(self):
        """Each line is the digits of a datagram."""
        if self.words is not None or self.status is not None or self.texts[ERRORS]:
            raise BadCase(f"{self.name} has other lines than < and >")
        given, wanted = ([bytes.fromhex(line.decode()) for line in self.texts[mark].splitlines()] for mark in (INPUT, OUTPUT))
        return Peer(self.name, self.server, given, wanted)

    def run(self):
        if self.words is None or self.status is None:
            raise BadCase(f"{self.name} has no line {'$' if self.words is None else '='}")
        return Run(self.name, self.words, *(self.texts[mark] for mark in (INPUT, OUTPUT, ERRORS)), self.status, self.places)


class FileSection:
    """The lines of a file in a case's file."""

    kind = "file"

    def __init__(self, name):
        self.name = name
        self.contents = {INPUT: None, OUTPUT: None}

    def add(self, line, number):
        marked = MARKED.fullmatch(line)
        if not marked or marked[1] not in self.contents:
            raise BadCase("a file has lines < and > alone")
        text = exact_bytes(marked[3] or "") if marked[2] else digit_bytes(marked[3])
        self.contents[marked[1]] = (self.contents[marked[1]] or b"") + text

    def file(self):
        return File(self.name, self.contents[INPUT], self.contents[OUTPUT])


class Mark:
    """A line that asks for something, and has none below it."""

    def __init__(self, kind, name):
        if (kind == "one thread") != (name is None):
            raise BadCase("only [one thread] has no name")
        self.kind, self.name = kind, name

    def add(self, line, number):
        raise BadCase(f"no line belongs to [{self.kind}]")


def about_of(lines):
    """What the case shows, which its first lines say."""
    said = []
    for line in lines:
        if not line.startswith("#"):
            break
        said.append(line[1:].strip())
    return " ".join(said).strip()


def sections_of(lines):
    sections = []
    for number, line in enumerate(lines, 1):
        header, file_header, mark = (form.fullmatch(line) for form in (SECTION, FILE_SECTION, MARK))
        try:
            if header:
                sections.append(Section(*header.groups()))
            elif file_header:
                sections.append(FileSection(file_header[1]))
            elif mark:
                sections.append(Mark(*mark.groups()))
            elif line.strip() and not line.startswith("#"):
                sections = sections or [Section("client", "client")]
                sections[-1].add(line, number)
        except BadCase as problem:
            raise BadCase(f"line {number}: {problem}") from None
    return sections


def case_of_file(path):
    with open(path, encoding="utf-8", newline="\n") as file:
        lines = file.read().split("\n")
    about = about_of(lines)
    if not about or about.startswith(TODO):
        raise BadCase("its first comment doesn't say what it shows")
    sections = sections_of(lines)
    files = [section.file() for section in sections if section.kind == "file"]
    journals = [section.name for section in sections if section.kind == "journal"]
    names = [file.name for file in files] + journals
    if len(set(names)) < len(names):
        raise BadCase("it has two files of one name")
    programs = programs_of([section for section in sections if section.kind not in ("file", "journal", "one thread")])
    return Case(path, about, *programs, files, journals, any(section.kind == "one thread" for section in sections))


def programs_of(sections):
    """The servers, the peers that send to them, the clients that run at once, one after the other, and who is restarted meanwhile."""
    servers, peers, clients, restarts = [], [], [], []
    for section in sections:
        if section.kind == "server":
            servers.append(section.run())
        elif section.kind == "datagrams":
            peers.append(section.peer())
        elif section.kind == "client":
            clients.append([section.run()])
            restarts.append([])
        elif not clients:
            raise BadCase(f"no client comes before {section.name}")
        elif section.kind == "restart":
            restarts[-1].append(section.name)
        else:
            clients[-1].append(section.run())
    check_names(servers, peers, clients, restarts)
    return servers, peers, clients, restarts


def check_names(servers, peers, clients, restarts):
    """Refuses a case without programs, and one whose names are of two or of nobody."""
    names = [each.name for each in [*servers, *peers, *(run for line in clients for run in line)]]
    if not names or len(set(names)) < len(names):
        raise BadCase("it has no program, or two of one name")
    known = {server.name for server in servers}
    if {peer.server for peer in peers} - known:
        raise BadCase("datagrams go to no server of the case")
    if {name for line in restarts for name in line} - known:
        raise BadCase("a restart is of no server of the case")


def contents(folder, name):
    with open(os.path.join(folder, name), "rb") as file:
        return file.read()


def has(folder, name):
    return os.path.exists(os.path.join(folder, name))


def lines_of(folder, name):
    lines = contents(folder, name).split(b"\n")
    return lines[:-1] if lines[-1] == b"" else lines


def run_of_folder(folder, name):
    texts = (contents(folder, each) for each in ("input", "output", "errors"))
    return Run(name, lines_of(folder, "words"), *texts, int(contents(folder, "status")), {})


def server_of_folder(folder):
    status = int(contents(folder, "server_status"))
    return Run("server", lines_of(folder, "server"), b"", b"", contents(folder, "server_errors"), status, {})


def case_of_folder(folder):
    about = contents(folder, "about").decode().strip() if has(folder, "about") else None
    if has(folder, "programs"):
        names = [line.decode().split() for line in lines_of(folder, "programs")]
        servers, *clients = [[run_of_folder(os.path.join(folder, name), name) for name in line] for line in names]
    else:
        servers = [server_of_folder(folder)] if has(folder, "server") else []
        clients = [[run_of_folder(folder, "client")]]
    return Case(folder, about, servers, [], clients, [[] for _ in clients], [], [], False)


def read_case(path):
    return case_of_folder(path) if os.path.isdir(path) else case_of_file(path)


def cases_below(path):
    """The files and folders of cases at a path and below it, in order."""
    if not os.path.isdir(path):
        return [path]
    inner = sorted(os.path.join(path, name) for name in os.listdir(path))
    if any(os.path.basename(each) in FOLDER_FILES and os.path.isfile(each) for each in inner):
        return [path]
    return [case for each in inner if os.path.isdir(each) or each.endswith(".case") for case in cases_below(each)]


def line_at(run, mark, at):
    """The line of the case's file that says the byte at a place of the output or the errors; nothing where none does."""
    places = run.places.get(mark, [])
    found = bisect.bisect([begin for begin, _ in places], at)
    return places[found - 1][1] if found else None
